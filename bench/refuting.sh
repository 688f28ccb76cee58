#!/usr/bin/env bash
# Usage: bench/refuting.sh
# What it costs to write a refutation of some thousand entries and to verify it: two structs of so many references to
# arrays, each of a type of its own that has one value, so that each reference fails with each other one.
set -u
. "$(dirname "${BASH_SOURCE[0]}")/program.sh"

file_of() { # REFERENCES ELEMENTS
    local i fields=
    echo "lifetime 'a;"
    for i in $(seq -w 1 "$1"); do
        echo "#[repr(u8)] pub enum F$i { V = $((10#$i)) }"
        fields+="pub r$i: &'a [F$i; $2], "
    done
    echo "#[repr(C)] pub struct S<'a> { $fields pub x: u8 }"
    echo "#[repr(C)] pub struct T<'a> { $fields pub x: bool }"
    echo "ask S<'a> => T<'a>;"
}

counted() { # WORDS.. <FILE
    valgrind --tool=callgrind --callgrind-out-file=/dev/null "$program" "$@" 2>&1 >/dev/null | awk '/Collected/ { print $4 }'
}

echo '| References | Bytes that each points to | Entries | Writing, instructions | s | kB | Verifying, instructions | s | kB |'
echo '|---|---|---|---|---|---|---|---|---|'
for size in '33 16' '64 16' '33 256'; do
    set -- $size
    file_of "$1" "$2" >"$work/file"
    /usr/bin/env time -f '%e | %M' "$program" --refute 1 <"$work/file" >"$work/text" 2>"$work/writing"
    /usr/bin/env time -f '%e | %M' "$program" --verify <"$work/text" >"$work/out" 2>"$work/verifying"
    [ "$(cat "$work/out")" = 'accepted 1' ] || { cat "$work/out" >&2; exit 1; }
    printf '| %s | %s | %s | %s | %s | %s | %s |\n' "$1" "$2" "$(grep -c '^&' "$work/text")" \
        "$(counted --refute 1 <"$work/file")" "$(tail -n 1 "$work/writing")" \
        "$(counted --verify <"$work/text")" "$(tail -n 1 "$work/verifying")"
done
