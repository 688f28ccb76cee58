echo 'ask Foo => u8;'
bash "$(dirname "$0")/../one_reference_too_many/stdin.sh"
