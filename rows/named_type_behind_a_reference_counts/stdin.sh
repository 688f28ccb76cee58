bash "$(dirname "$0")/../most_named_types/stdin.sh"
echo "ask u8 => &'static S1<'static>;"
