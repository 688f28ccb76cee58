#!/usr/bin/env bash
# Usage: bench/cost.sh
# Counts the instructions of whole runs, by valgrind's callgrind: what a question costs, what its size adds,
# and what a file costs by its length. A count is the same each time.
set -u
. "$(dirname "${BASH_SOURCE[0]}")/program.sh"

questions() { # COUNT ELEMENTS
    for _ in $(seq "$1"); do echo "ask [u64; $2] => [u64; $2];"; done >"$work/file"
}

measure() { # NAME
    printf '%12d  %s\n' "$(instructions "$work/file")" "$1"
}

: >"$work/file"
measure "the empty file"
questions 1 512
measure "1 question, arrays of 512 elements"
questions 1 4096
measure "1 question, arrays of 4096 elements"
questions 16 4096
measure "16 questions, arrays of 4096 elements"
questions 64 4096
measure "64 questions, arrays of 4096 elements"
head -c 1048576 /dev/zero | tr '\0' ' ' >"$work/file"
measure "1048576 bytes of white space"
