#!/usr/bin/env bash
# How long `compile` takes to print gate files of 10,000, 100,000 and 1,000,000 gates into a file, as a ratio to `cat` of that file
# into another. Behind each ratio stand the growth from one size to the next and the peak memory, as a ratio to the size of the
# gate file. The last line is the largest file into a pipe. Usage: bench/compile.sh   (the best of five runs each)
set -eu
here=$(cd "$(dirname "${BASH_SOURCE[0]}")/.." && pwd)
folder=$(mktemp -d)
trap 'rm -rf "$folder"' EXIT
"$here/yathrefon" --prove format < /dev/null > /dev/null || true   # builds the program

PYTHONPATH="$here/bench" python3 - "$folder" "$here/crates/yathrefon/out/yathrefon" <<'END'
import pathlib
import sys
from inputs import copies
from timing import best, peak_memory

folder, program = pathlib.Path(sys.argv[1]), sys.argv[2]
source, gates, copy = folder / "source", folder / "gates", folder / "copy"
compiled = [program, "compile", "--word", "32", "--addr", "8", "--entry", "main"]

before = None
for count in (10_000, 100_000, 1_000_000):
    source.write_text(copies(count))
    taken = best(compiled, source, gates)
    growth = f", {taken / before:.1f} times the one before" if before else ""
    memory = peak_memory(compiled, source) / gates.stat().st_size
    print(f"{count:,} gates: yathrefon / cat: {taken / best(['cat'], gates, copy):.1f}{growth}; "
          f"peak memory / size of the gate file: {memory:.1f}", flush=True)
    before = taken
piped = f"{' '.join(compiled)} | cat"
print(f"1,000,000 gates into a pipe: yathrefon / cat: {best(['sh', '-c', piped], source) / best(['sh', '-c', 'cat | cat'], gates):.1f}")
END
