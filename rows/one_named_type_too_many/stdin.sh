bash "$(dirname "$0")/../most_named_types/stdin.sh"
echo "ask S1<'static> => u8;"
