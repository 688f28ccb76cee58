for i in $(seq 16); do echo "lifetime 'l$i;"; done
for i in $(seq 64); do echo "struct S$i<'x>;"; done
for i in $(seq 64); do
    printf 'ask ('
    for k in $(seq 16); do printf "S$i<'l$k>, "; done
    echo ') => u8;'
done
