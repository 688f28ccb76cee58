#!/usr/bin/env bash
# Usage: tests/refused_memory.sh [PROGRAM]
# Runs the program on some of the files of rows/, with each of its requests for memory refused in turn: once that one
# alone, and once that one and all later ones. Each run has to end with status 7 and write nothing, or to end and
# write as with ample memory. It needs a C compiler. The last line is 'N passed, M failed'.
set -u
here=$(cd "$(dirname "${BASH_SOURCE[0]}")" && pwd)
program=${1:-$here/../crates/transmute_report/out/transmute_report}
[ -x "$program" ] || { echo "no program at $program" >&2; exit 2; }
work=$(mktemp -d)
trap 'rm -rf "$work"' EXIT
"${CC:-cc}" -shared -fPIC -O1 -o "$work/refuse.so" "$here/refuse.c" -ldl || exit 2

passed=0
failed=0

words_of() { # ROW
    words=()
    [ ! -f "$1/args" ] || mapfile -t words <"$1/args"
}

# Whether the run that was just made wrote nothing for want of memory, or what it writes with ample memory.
is_right() { # ROW STATUS
    if [ "$2" = 7 ]; then
        [ ! -s "$work/stdout" ]
    else
        [ "$2" = "$(cat "$1/status")" ] && cmp -s "$work/stdout" "$1/stdout"
    fi
}

refuse() { # ROW NUMBER [LATER]
    local status
    env LD_PRELOAD="$work/refuse.so" REFUSE="$2" ${3:+REFUSE_LATER=1} "$program" "${words[@]}" <"$1/stdin" >"$work/stdout" 2>/dev/null
    status=$?
    if is_right "$1" "$status"; then
        passed=$((passed + 1))
    else
        failed=$((failed + 1))
        echo "differs: $(basename "$1"), request $2${3:+ and all later ones} (status $status)"
    fi
}

for name in byte_is_no_bool reference_behind_a_number wire_formats refute_two_levels verify_two_levels; do
    row=$here/../rows/$name
    words_of "$row"
    env LD_PRELOAD="$work/refuse.so" REFUSE_COUNT="$work/count" "$program" "${words[@]}" <"$row/stdin" >/dev/null
    count=$(cat "$work/count")
    for ((number = 1; number <= count; number++)); do
        refuse "$row" "$number"
        refuse "$row" "$number" later
    done
    echo "$name: $count requests"
done
echo "$passed passed, $failed failed"
[ "$failed" = 0 ]
