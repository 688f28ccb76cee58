echo 'struct S0 { f: u8 }'
for i in $(seq 62); do echo "struct S$i { f: S$((i - 1)) }"; done
echo 'ask S62 => u8;'
