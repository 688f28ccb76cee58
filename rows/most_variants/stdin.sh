echo 'enum E {'
for i in $(seq 256); do echo "V$i,"; done
echo '}'
