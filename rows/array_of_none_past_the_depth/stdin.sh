bash "$(dirname "$0")/../greatest_depth/stdin.sh"
echo 'ask [S62; 0] => u8;'
