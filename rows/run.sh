#!/usr/bin/env bash
# Usage: rows/run.sh PROGRAM [WORDS...]
# Runs the program on each row of this folder, and compares what it writes and the status that it ends
# with. A row is a folder with the files
#   stdin       the input, or stdin.sh, a script that writes it
#   stdout      what is to be written
#   status      the status that is wanted
#   args        the words, one a line, behind those given here (no file: none)
# With ROWS_SHOW=1 the differences are shown. The last line is 'N passed, M failed'.
set -u
dir=$(cd "$(dirname "${BASH_SOURCE[0]}")" && pwd)
if [ $# -lt 1 ]; then
    echo "usage: rows/run.sh PROGRAM [WORDS...]" >&2
    exit 2
fi

# rows are of the proved program
unset TRANSMUTE_REPORT_UNPROVED
work=$(mktemp -d)
trap 'rm -rf "$work"' EXIT
passed=0
failed=0
for row in "$dir"/*/; do
    row=${row%/}
    words=()
    [ ! -f "$row/args" ] || mapfile -t words <"$row/args"
    input=$row/stdin
    if [ -f "$row/stdin.sh" ]; then
        input=$work/stdin
        bash "$row/stdin.sh" >"$input"
    fi
    "$@" ${words[@]+"${words[@]}"} <"$input" >"$work/stdout"
    status=$?
    if [ "$status" = "$(cat "$row/status")" ] && cmp -s "$work/stdout" "$row/stdout"; then
        passed=$((passed + 1))
    else
        failed=$((failed + 1))
        echo "differs: $(basename "$row") (status $status)"
        [ -z "${ROWS_SHOW:-}" ] || diff "$work/stdout" "$row/stdout" | head -n 20
    fi
done
echo "$passed passed, $failed failed"
[ "$failed" = 0 ]
