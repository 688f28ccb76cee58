for _ in $(seq 256); do printf 'ask u8 => u8;'; done
