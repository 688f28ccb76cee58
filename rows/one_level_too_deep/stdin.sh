bash "$(dirname "$0")/../greatest_depth/stdin.sh"
echo 'struct S63 { f: S62 }'
echo 'ask S63 => u8;'
