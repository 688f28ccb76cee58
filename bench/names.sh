#!/usr/bin/env bash
# Usage: bench/names.sh
# What resolving names costs, for files at the limits of what a file may declare: 256 definitions of 256
# fields, each field of the type that is declared last, and 256 questions; and 256 definitions of four type
# parameters, each of which gives its own to the next one, turned round, so that it is told late what each of
# them holds. Instructions by valgrind's callgrind, and seconds.
set -u
. "$(dirname "${BASH_SOURCE[0]}")/program.sh"

file() { # DEFINITIONS FIELDS QUESTIONS
    awk -v definitions="$1" -v fields="$2" -v questions="$3" 'BEGIN {
        last = "S" definitions
        for (i = 1; i < definitions; i++) {
            printf "struct S%d{", i
            for (j = 0; j < fields; j++) printf "f%d:%s,", j, last
            print "}"
        }
        print "struct " last ";"
        for (i = 0; i < questions; i++) printf "ask %s=>S1;\n", last
    }'
}

for definitions in 64 128 256; do
    file "$definitions" 256 256 >"$work/file"
    cost_of "$work/file" "$(printf '%3d definitions of 256 fields' "$definitions")"
done

turned() { # FIELDS
    awk -v fields="$1" 'BEGIN {
        for (i = 1; i < 256; i++) {
            printf "struct S%d<A,B,C,D>{", i
            for (j = 0; j < fields; j++) printf "f%d:S%d<B,C,D,A>,", j, i + 1
            print "}"
        }
        print "struct S256<A,B,C,D>{x:A}"
    }'
}

for fields in 1 128; do
    turned "$fields" >"$work/file"
    cost_of "$work/file" "$(printf '256 definitions with arguments in %3d fields' "$fields")"
done
