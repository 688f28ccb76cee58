for i in $(seq 0 63); do echo "ask &'static [u8; $i] => u8;"; done
