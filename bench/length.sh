#!/usr/bin/env bash
# Usage: bench/length.sh
# What a file costs by its length, for files that are one thing over and over: instructions by valgrind's
# callgrind, and the most bytes of stack by its massif, at a quarter, a half and the whole of the most bytes
# that a file may have.
set -u
. "$(dirname "${BASH_SOURCE[0]}")/program.sh"

repeated() { # PIECE BYTES
    yes "$1" | tr -d '\n' | head -c "$2"
}

measure() { # NAME FRONT PIECE
    for bytes in 262144 524288 1048576; do
        { printf '%s' "$2"; repeated "$3" $((bytes - ${#2})); } >"$work/file"
        printf '%-24s %9d bytes %14d instructions %7d bytes of stack  %s\n' "$1" "$bytes" \
            "$(instructions "$work/file")" "$(stack_of "$work/file")" "$("$program" <"$work/file" | tail -n 1)"
    done
}

measure "white space" '' ' '
measure "one comment" '//' 'a'
measure "open comments" '' '/*'
measure "one word" '' 'a'
measure "struct and one word" 'struct ' 'a'
measure "questions" '' 'ask u8=>u8;'
measure "flags of one question" 'ask u8=>u8 assume ' 'safety,'
