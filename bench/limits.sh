#!/usr/bin/env bash
# Usage: bench/limits.sh [SECONDS [KILOBYTES]]
# The dearest files that the limits let through: the seconds, the greatest memory and the status of a run over each. A run
# is ended after so many seconds (600), has no more than so many kilobytes of memory (4,000,000), and 128 of stack.
set -u
. "$(dirname "${BASH_SOURCE[0]}")/program.sh"
most_seconds=${1:-600}
most_memory=${2:-4000000}

measure() { # NAME
    local status seconds memory
    (ulimit -s 128 && ulimit -v "$most_memory" && exec timeout "$most_seconds" \
        /usr/bin/env time -o "$work/time" -f '%e %M' "$program" <"$work/file" >"$work/out")
    status=$?
    read -r seconds memory < <(tail -n 1 "$work/time")
    [ "$status" != 124 ] || seconds="over $most_seconds" memory=unknown
    echo "$1, $(wc -c <"$work/file") bytes: $seconds s, $memory kB, status $status: $(tail -n 1 "$work/out")"
}

# As many questions as a file may have, each of types as large as a type may be.
for i in $(seq 256); do echo 'ask [u64; 8192] => [u64; 8192];'; done >"$work/file"
measure "256 questions of 65,536 bytes each"

# As many references as a file may have, to pointees as large as a type may be: each pair of them is looked at.
for i in $(seq 32); do
    echo "ask &'static [u8; $((65536 - i))] => &'static mut [u8; $((65537 - i))];"
done >"$work/file"
measure "64 references to 65,536 bytes each"

# The same under each set of assumptions: a table of pairs for each.
flags() { # NUMBER
    local i names=(alignment lifetimes safety validity) chosen=()
    for i in 0 1 2 3; do [ $(($1 >> i & 1)) = 0 ] || chosen+=("${names[i]}"); done
    [ "${#chosen[@]}" = 0 ] || (IFS=,; echo " assume ${chosen[*]}")
}
for i in $(seq 32); do
    echo "ask &'static [u8; $((65536 - i))] => &'static mut [u8; $((65537 - i))]$(flags $((i % 16)));"
done >"$work/file"
measure "the same under 16 sets of assumptions"

# As many named types as a file may have, each held by value by the next, as deep as a type may be, and references that
# lead from each to the next.
{
    for i in $(seq 0 61); do
        echo "#[repr(C)] pub struct S$i { pub n: [u8; 512], pub next: &'static S$(((i + 1) % 62)) }"
    done
    for i in $(seq 256); do echo "ask S$((i % 62)) => S$((i * 7 % 62));"; done
} >"$work/file"
measure "256 questions over a ring of 62 references"

# Alternatives that overlap, none of which is left for a value to be.
for n in 18 24 64; do
    { overlapping "$n" bool && echo "ask [u8; $n] => U;"; } >"$work/file"
    measure "$n alternatives that overlap"
done
