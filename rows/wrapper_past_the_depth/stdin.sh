bash "$(dirname "$0")/../greatest_depth/stdin.sh"
echo 'ask u8 => Option<S62>;'
