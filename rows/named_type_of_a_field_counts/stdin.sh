bash "$(dirname "$0")/../most_named_types/stdin.sh" | sed "s/S64<'l16>, //"
echo "struct T { f: S1<'static> }"
echo 'ask u8 => T;'
