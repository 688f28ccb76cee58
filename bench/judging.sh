#!/usr/bin/env bash
# Usage: bench/judging.sh
# Counts the instructions of whole runs over files that are dear to judge, by valgrind's callgrind, with the seconds of
# a run without it and the greatest memory.
set -u
. "$(dirname "${BASH_SOURCE[0]}")/program.sh"

measure() { # NAME
    cost_of "$work/file" "$1"
    echo "    greatest memory: $(memory_of "$work/file") kB"
}

for n in 4096 16384 65536; do
    echo "ask [u8; $n] => [u8; $n];" >"$work/file"
    measure "bytes to themselves, $n"
done
echo "ask [u8; 65536] => [bool; 65536];" >"$work/file"
measure "bytes to as many bools"

{
    echo '#[repr(u8)] enum E {'
    for i in $(seq 0 255); do echo "V$i(u8) = $i,"; done
    echo '} ask [E; 128] => [E; 128];'
} >"$work/file"
measure "an enum of 256 variants of two bytes, 128 times"

{
    echo '#[repr(u8)] enum P { Z = 0 } #[repr(u8)] enum Q { O = 1 }'
    echo '#[repr(C)] union U { pub p: P, pub q: Q } ask [bool; 64] => [U; 64];'
} >"$work/file"
measure "2^64 ways that join"

for i in $(seq 0 31); do
    printf "ask &'static [u8; 1024] => &'static [u8; %d];\nask &'static [u8; %d] => &'static u8;\n" $((1023 - i)) $((1023 - i))
done >"$work/file"
measure "references to arrays of 1,024 bytes and less"

{
    for k in 11 13; do
        for i in $(seq 0 $((k - 1))); do
            echo "#[repr(C)] struct R${k}_$i { pub n: u64, pub next: &'static R${k}_$(((i + 1) % k)) }"
        done
    done
    echo 'ask R11_0 => R13_0;'
} >"$work/file"
measure "rings of 11 and of 13 structs that refer to the next"

for i in $(seq 256); do echo "ask [u8; $i] => bool;"; done >"$work/file"
measure "256 questions that are no"

{
    for i in $(seq 0 23); do
        echo "#[repr(C)] pub struct T$i { pub a: u8, pub b: u32, pub c: [u8; 4], pub d: char }"
    done
    for i in $(seq 0 63); do echo "ask T$((i % 24)) => T$(((i * 7) % 24));"; done
} >"$work/file"
measure "64 questions over 24 declarations"

chain() { # LENGTH
    for i in $(seq 0 $(($1 - 2))); do echo "#[repr(C)] struct C$i { pub next: &'static C$((i + 1)) }"; done
    echo "#[repr(C)] struct C$(($1 - 1)) { pub b: u8 }"
    echo 'ask C0 => C0;'
}
chain 30 >"$work/file"
measure "a chain of thirty references"

for n in 8 12 16; do
    { overlapping "$n" bool && echo "ask [u8; $n] => U;"; } >"$work/file"
    measure "alternatives that overlap, $n"
done
