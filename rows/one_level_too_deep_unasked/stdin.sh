echo 'struct S0 { f: u8 }'
for i in $(seq 63); do echo "struct S$i { f: S$((i - 1)) }"; done
echo 'ask u8 => u8;'
