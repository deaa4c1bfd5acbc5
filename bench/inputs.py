"""Inputs for the scripts of this folder."""
import random
from pathlib import Path

PRINTED = (Path(__file__).resolve().parent.parent / "examples/length.printed").read_text()


def functions(size):
    """A program of about this many bytes: one type and many small functions."""
    head, function = PRINTED.split("\n", 1)
    return head + "\n" + function * (size // len(function))


def different_functions(size):
    """The same, but each function has a name of its own, so that `check` accepts the program."""
    head, function = PRINTED.split("\n", 1)
    count = size // len(function)
    named = (function.replace("length[", f"length_{number}[") for number in range(count))
    return head + "\n" + "".join(named)


def copies(gates):
    """A program with about so many gates in words of 32 bits: it assigns and un-assigns copies of its parameter."""
    copy = "  let t <- x;\n  let t -> x;\n"
    return "fun main(x: uint) -> uint {\n" + copy * (gates // 64) + "  let r <- x;\n  return r;\n}\n"


def gate_file(gates, wires):
    """A gate file with so many gates on so many wires. Each gate has 0 to 3 controls."""
    numbers = random.Random(1)
    lines, t_count = [], 0
    for _ in range(gates):
        *controls, target = numbers.sample(range(wires), numbers.choice((1, 1, 2, 2, 3, 3, 4)))
        name, weight = (("x", 0), ("cx", 0), ("ccx", 7), ("mcx 3", 21))[len(controls)]
        lines.append(" ".join(map(str, (name, *sorted(controls), target))) + "\n")
        t_count += weight
    return f"tower-gates 1\nlevel mcx\nwires {wires}\ngates {gates}\nt-count {t_count}\n" + "".join(lines) + "end\n"


def bit_lines(count, wires):
    """The separator line and so many lines of bits, which follow a gate file in the input of `sim`."""
    numbers = random.Random(2)
    return "%%\n" + "".join("".join(numbers.choices("01", k=wires)) + "\n" for _ in range(count))


def list_states(count, items, blocks=255):
    """A program that counts the items of a list, and so many states with a list of so many items in random blocks of the memory."""
    numbers = random.Random(3)
    texts = []
    for _ in range(count):
        places = numbers.sample(range(1, blocks + 1), blocks)
        follower = dict(zip(places, places[1:]))
        follower[places[items - 1]] = follower[places[-1]] = 0
        cells = {block: f"live list ({numbers.randrange(256)}, @{follower[block]})" for block in places[:items]}
        cells.update((block, f"free {follower[block]}") for block in places[items:])
        lines = [f"free {places[items]}", *(f"{block} {cells[block]}" for block in range(1, blocks + 1)), f"xs @{places[0] if items else 0}", "acc 0"]
        texts.append("".join(line + "\n" for line in lines))
    return PRINTED + "%%\n" + "--\n".join(texts)
