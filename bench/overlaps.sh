#!/usr/bin/env bash
# Usage: bench/overlaps.sh
# What alternatives that overlap cost where the answer is yes: a union of k structs of k bytes, the i-th with a `bool`
# as its i-th byte and `u8` elsewhere, to itself, and behind references of both kinds; and a union of k structs of k
# `u8` each, whose words are all the same. Prints a table: instructions by valgrind's callgrind, the seconds of a run
# without it, its greatest memory, and the last line that it writes.
set -u
. "$(dirname "${BASH_SOURCE[0]}")/program.sh"

row() { # NAME
    /usr/bin/env time -f '%e' "$program" <"$work/file" >"$work/out" 2>"$work/seconds"
    printf '| %s | %s | %s | %s | %s |\n' "$1" "$(instructions "$work/file")" "$(tail -n 1 "$work/seconds")" \
        "$(memory_of "$work/file")" "$(tail -n 1 "$work/out")"
}

echo '| File | Instructions | Seconds | Memory, kB | Last line |'
echo '|---|---|---|---|---|'
for k in 16 32 64; do
    for question in 'U => U' "&'static U => &'static U" "&'static mut U => &'static mut U"; do
        { overlapping "$k" bool && echo "ask $question;"; } >"$work/file"
        row "$k structs, \`$question\`"
    done
done
for k in 16 64; do
    { overlapping "$k" u8 && echo 'ask U => U;'; } >"$work/file"
    row "$k structs that are alike, \`U => U\`"
done
