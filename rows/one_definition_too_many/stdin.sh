for i in $(seq 256); do echo "struct S$i;"; done
echo '#[repr(C)] pub union U { a: u8 }'
