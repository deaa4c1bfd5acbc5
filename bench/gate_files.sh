#!/usr/bin/env bash
# How long `invert` and `sim` take on gate files of 10,000, 100,000 and 1,000,000 gates on 4,096 wires, as a ratio to `wc -l` of the
# same file; `sim` with 1, 64 and 1,024 lines of bits behind the file, which are part of it for `wc -l` too. Behind each ratio stand
# the growth from one size to the next and the peak memory, as a ratio to the size of the input.
# Usage: bench/gate_files.sh   (the best of five runs each)
set -eu
here=$(cd "$(dirname "${BASH_SOURCE[0]}")/.." && pwd)
folder=$(mktemp -d)
trap 'rm -rf "$folder"' EXIT
"$here/yathrefon" --prove format < /dev/null > /dev/null || true   # builds the program

PYTHONPATH="$here/bench" python3 - "$folder" "$here/crates/yathrefon/out/yathrefon" <<'END'
import pathlib
import sys
from inputs import bit_lines, gate_file
from timing import best, peak_memory

WIRES = 4096
folder, program = pathlib.Path(sys.argv[1]), sys.argv[2]

before = {}
for gates in (10_000, 100_000, 1_000_000):
    text = gate_file(gates, WIRES)
    for name, command, behind in (
        ("invert", "invert", ""),
        ("sim, 1 line", "sim", bit_lines(1, WIRES)),
        ("sim, 64 lines", "sim", bit_lines(64, WIRES)),
        ("sim, 1,024 lines", "sim", bit_lines(1024, WIRES)),
    ):
        path = folder / "input"
        path.write_text(text + behind)
        taken = best([program, command], path)
        growth = f", {taken / before[name]:.1f} times the one before" if name in before else ""
        memory = peak_memory([program, command], path) / path.stat().st_size
        print(f"{gates:,} gates, {name}: yathrefon / wc -l: {taken / best(['wc', '-l'], path):.1f}{growth}; "
              f"peak memory / size of the input: {memory:.1f}", flush=True)
        before[name] = taken
END
