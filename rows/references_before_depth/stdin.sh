bash "$(dirname "$0")/../one_level_too_deep/stdin.sh"
bash "$(dirname "$0")/../one_reference_too_many/stdin.sh"
