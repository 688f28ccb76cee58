bash "$(dirname "$0")/../most_references/stdin.sh"
echo "ask u8 => &'static mut [u8; 0];"
