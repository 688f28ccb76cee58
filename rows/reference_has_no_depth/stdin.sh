bash "$(dirname "$0")/../greatest_depth/stdin.sh"
echo "ask &'static S62 => u8;"
