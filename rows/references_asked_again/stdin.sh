bash "$(dirname "$0")/../most_references/stdin.sh"
bash "$(dirname "$0")/../most_references/stdin.sh"
