#!/bin/sh
# Runs a built calls program beside check.py, on sheets that are not committed: full-size and hostile ones, then
# random ones for each seed.
#   compare.sh PROGRAM [SEED..]      exit 1 at the first difference
set -eu
here=$(cd "$(dirname "$0")" && pwd)
[ $# -ge 1 ] || { echo "usage: compare.sh PROGRAM [SEED..]" >&2; exit 2; }
program=$1
shift
[ $# -ge 1 ] || set -- 2 3

scratch=$(mktemp -d)
trap 'rm -rf "$scratch"' EXIT

compare() {
    python3 "$here/check.py" < "$scratch/stdin" > "$scratch/expected"
    "$program" < "$scratch/stdin" > "$scratch/got" || { echo "compare: $1, the program failed" >&2; exit 1; }
    if ! cmp "$scratch/expected" "$scratch/got"; then
        diff "$scratch/expected" "$scratch/got" | cut -c 1-200 | head -n 20 >&2
        echo "compare: $1 differs" >&2
        exit 1
    fi
    echo "compare: $1, $(grep -c '' "$scratch/stdin") lines, the same"
}

python3 "$here/generate.py" --large > "$scratch/stdin"
compare "full-size and hostile sheets"
for seed in "$@"; do
    python3 "$here/generate.py" --seed "$seed" --random 2000 > "$scratch/stdin"
    compare "seed $seed"
done
