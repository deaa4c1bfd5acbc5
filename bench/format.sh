#!/usr/bin/env bash
# How long `format` takes on programs of 0.1, 1 and 10 megabytes, as a ratio to `wc` of the same file, and how it grows from
# one to the next. Usage: bench/format.sh   (the best of five runs each)
set -eu
here=$(cd "$(dirname "${BASH_SOURCE[0]}")/.." && pwd)
folder=$(mktemp -d)
trap 'rm -rf "$folder"' EXIT
"$here/yathrefon" --prove format < /dev/null > /dev/null || true   # builds the program

PYTHONPATH="$here/bench" python3 - "$folder/input" "$here/crates/yathrefon/out/yathrefon" <<'END'
import sys
from inputs import functions
from timing import best

path, program = sys.argv[1:]
before = None
for size in (100_000, 1_000_000, 10_000_000):
    with open(path, "w") as source:
        source.write(functions(size))
    taken = best([program, "format"], path)
    growth = "" if before is None else f", {taken / before:.1f} times the one before"
    print(f"{size // 1000} KB: yathrefon / wc: {taken / best(['wc'], path):.1f}{growth}")
    before = taken
END
