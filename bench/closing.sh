#!/usr/bin/env bash
# Usage: bench/closing.sh
# What closing types costs, for files at every limit on what questions lead to: 1,024 named types, 64 deep by
# value, 64 references and 256 questions, with 256 definitions. The named types are those of 64 definitions
# over 16 lifetimes, each with fields of the one before; in the first file the last of them has 256 fields, in
# the second each has. The third file closes 1,017 named types with type arguments, those of 254 definitions over
# 4 arguments of some 190 nodes each; the fourth has types that would grow for ever. Instructions by valgrind's
# callgrind, and seconds.
set -u
. "$(dirname "${BASH_SOURCE[0]}")/program.sh"

file() { # FIELDS-OF-EACH
    awk -v each="$1" 'BEGIN {
        for (k = 1; k <= 16; k++) printf "lifetime '\''l%d;\n", k
        print "struct S0<'\''x>;"
        for (i = 1; i < 64; i++) {
            printf "struct S%d<'\''x>{", i
            fields = i == 63 ? 256 : each
            for (j = 0; j < fields; j++) printf "f%d:S%d<'\''x>,", j, i - 1
            print "}"
        }
        for (i = 64; i < 256; i++) printf "struct S%d;\n", i
        for (i = 0; i < 192; i++) printf "ask S63<'\''l%d>=>S62<'\''l%d>;\n", i % 16 + 1, i % 16 + 1
        for (i = 0; i < 64; i++) printf "ask &'\''static [u8;%d]=>u8;\n", i
    }'
}

for fields in 1 256; do
    file "$fields" >"$work/file"
    cost_of "$work/file" "$(printf '%3d fields in each definition' "$fields")"
done

generic() {
    awk 'BEGIN {
        for (i = 0; i < 253; i++) printf "#[repr(C)] pub struct D%d<T> { pub r: PhantomData<D%d<T>> }\n", i, i + 1
        print "#[repr(C)] pub struct D253<T> { pub r: PhantomData<T> }"
        printf "#[repr(C)] pub struct All<T> { "
        split("u8 u16 u32 u64", last, " ")
        for (k = 1; k <= 4; k++) printf "pub f%d: PhantomData<D0<(T, T, T, %s)>>, ", k, last[k]
        printf "}\nask All<(u8"
        for (i = 1; i < 61; i++) printf ", u8"
        print ")> => ();"
    }'
}

generic >"$work/file"
cost_of "$work/file" '1,017 types with arguments'
echo "#[repr(C)] struct G<T> { pub x: &'static G<&'static T>, pub y: PhantomData<T> } ask G<u8> => u8;" >"$work/file"
cost_of "$work/file" 'types that grow'
