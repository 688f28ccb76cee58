bash "$(dirname "$0")/../one_reference_too_many/stdin.sh"
bash "$(dirname "$0")/../one_named_type_too_many/stdin.sh"
