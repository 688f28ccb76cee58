echo 'struct S {'
for i in $(seq 256); do echo "f$i: u8,"; done
echo '}'
