for i in $(seq 0 64); do echo "ask PhantomData<&'static [u8; $i]> => u8;"; done
