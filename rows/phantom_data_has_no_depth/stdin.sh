bash "$(dirname "$0")/../greatest_depth/stdin.sh"
echo 'ask PhantomData<S62> => u8;'
