#!/bin/sh
# Makes the corpus of the calls program anew and compares it with the committed files.
#   regenerate.sh            exit 1 where crates/calls/stdin or crates/calls/stdout differs
#   regenerate.sh --write    write both files
set -eu
here=$(cd "$(dirname "$0")" && pwd)
calls=$(cd "$here/../.." && pwd)/crates/calls

case "${1:-}" in
    "" | --write) ;;
    *) echo "usage: regenerate.sh [--write]" >&2; exit 2 ;;
esac

scratch=$(mktemp -d)
trap 'rm -rf "$scratch"' EXIT
python3 "$here/generate.py" > "$scratch/stdin"
python3 "$here/check.py" < "$scratch/stdin" > "$scratch/stdout"

if [ "${1:-}" = --write ]; then
    mkdir -p "$calls"
    cp "$scratch/stdin" "$scratch/stdout" "$calls/"
    echo "corpus written: $(grep -c '' "$calls/stdin") lines"
    exit 0
fi

for file in stdin stdout; do
    if ! cmp "$scratch/$file" "$calls/$file"; then
        echo "corpus: crates/calls/$file differs; regenerate.sh --write renews it" >&2
        exit 1
    fi
done
echo "corpus: $(grep -c '' "$calls/stdin") lines, as committed"
