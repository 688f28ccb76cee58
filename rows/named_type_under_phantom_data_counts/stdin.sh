bash "$(dirname "$0")/../most_named_types/stdin.sh"
echo "ask u8 => PhantomData<S1<'static>>;"
