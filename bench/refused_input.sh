#!/usr/bin/env bash
# How long the program takes on a large input that is no program, as a ratio to `cat` of the same file into /dev/null.
# Usage: bench/refused_input.sh [MEBIBYTES]   (128 if left out; the best of five runs each)
set -eu
here=$(cd "$(dirname "${BASH_SOURCE[0]}")/.." && pwd)
size=${1:-128}
input=$(mktemp)
trap 'rm -f "$input"' EXIT
head -c "$((size * 1048576))" /dev/zero | tr '\0' 'a' > "$input"
"$here/yathrefon" --prove format < /dev/null > /dev/null || true   # builds the program

PYTHONPATH="$here/bench" python3 - "$input" "$here/crates/yathrefon/out/yathrefon" <<'END'
import sys
from timing import best

path, program = sys.argv[1], sys.argv[2]
print(f"yathrefon / cat: {best([program, 'format'], path) / best(['cat'], path):.1f}")
END
