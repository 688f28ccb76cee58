for _ in $(seq 257); do printf 'ask u8 => u8;'; done
