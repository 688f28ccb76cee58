echo 'enum E { A {'
for i in $(seq 200); do echo "f$i: u8,"; done
echo '}, B('
for i in $(seq 57); do echo 'u8,'; done
echo ') }'
