#!/usr/bin/env bash
# Usage: bench/matching.sh
# What it costs to match a long value with its type, by types and cells alone: the instructions, by valgrind's
# callgrind, and the most bytes of stack, by its massif, of tests that do so and little else. The gate builds them.
set -u
top=$(cd "$(dirname "${BASH_SOURCE[0]}")/.." && pwd)
command -v valgrind >/dev/null || { echo "valgrind is wanted: apt-get install valgrind" >&2; exit 1; }
tests=$top/crates/tm_tests/out/tm_tests_tests
[ -x "$tests" ] || { echo "no tests at $tests: rt ci builds them" >&2; exit 1; }
work=$(mktemp -d)
trap 'rm -rf "$work"' EXIT

echo '| Test | Instructions | Bytes of stack |'
echo '|---|---|---|'
for name in $("$tests" --list | sed -n 's/^\(long_values::.*\): test$/\1/p'); do
    instructions=$(valgrind --tool=callgrind --callgrind-out-file=/dev/null "$tests" "$name" 2>&1 | awk '/Collected/ { print $4 }')
    valgrind --tool=massif --stacks=yes --heap=no --massif-out-file="$work/massif" "$tests" "$name" >/dev/null 2>&1
    stack=$(awk -F= '/^mem_stacks_B/ { if ($2 > most) most = $2 } END { print most }' "$work/massif")
    echo "| \`${name#long_values::}\` | $instructions | $stack |"
done
