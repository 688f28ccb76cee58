for i in $(seq 256); do echo "struct S$i;"; done
