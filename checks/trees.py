"""Syntax trees of programs, and how they are printed on one line.

A function is a dictionary: its "name", "bound", "params" (pairs of a name and a written type), "result", "body", "return" (the node of
that word) and "returned".
"""


class Node:
    """A node of a tree: its kind, its parts, and the column of its first token once it is printed. `other` is the column of an `else`."""

    def __init__(self, kind, *parts):
        self.kind, self.parts, self.at, self.other = kind, parts, None, None

    def copy(self):
        """The same tree with nodes of its own, which have no columns yet."""
        parts = []
        for part in self.parts:
            if isinstance(part, Node):
                parts.append(part.copy())
            elif isinstance(part, list):
                parts.append([item.copy() if isinstance(item, Node) else item for item in part])
            else:
                parts.append(part)
        return Node(self.kind, *parts)


def nodes(part):
    """The nodes of a tree, or of a list of trees."""
    if isinstance(part, (list, tuple)):
        for item in part:
            yield from nodes(item)
    elif isinstance(part, Node):
        yield part
        yield from nodes(part.parts)


def reverse(stmts):
    """The reverse of a sequence. Its statements have the columns of those that they reverse."""
    out = []
    for stmt in reversed(stmts):
        kind, parts = stmt.kind, stmt.parts
        if kind == "let":
            other = Node("let", not parts[0], parts[1], parts[2])
        elif kind == "if":
            other = Node("if", parts[0], reverse(parts[1]), None if parts[2] is None else reverse(parts[2]))
        elif kind == "with":
            other = Node("with", parts[0], reverse(parts[1]))
        elif kind == "block":
            other = Node("block", reverse(parts[0]))
        else:
            other = stmt
        other.at, other.other = stmt.at, stmt.other
        out.append(other)
    return out


def overlap(left, right):
    """Whether two paths have one root, and the steps of one are a prefix of those of the other."""
    shorter, longer = sorted((left.parts[1], right.parts[1]), key=len)
    return left.parts[0] == right.parts[0] and longer[: len(shorter)] == shorter


def text_of(written):
    """The printed form of a written type."""
    kind, parts = written.kind, written.parts
    if kind == "pair":
        return f"({text_of(parts[0])}, {text_of(parts[1])})"
    if kind == "ptr":
        return f"ptr<{text_of(parts[0])}>"
    return parts[0] if kind == "named" else kind


class Printer:
    """Prints trees, and sets their columns."""

    def __init__(self):
        self.text = ""

    def word(self, word, node=None):
        if node is not None and node.at is None:
            node.at = len(self.text) + 1
        self.text += word + " "

    def type(self, node):
        kind, parts = node.kind, node.parts
        if kind == "pair":
            self.word("(", node), self.type(parts[0]), self.word(","), self.type(parts[1]), self.word(")")
        elif kind == "ptr":
            self.word("ptr", node), self.word("<"), self.type(parts[0]), self.word(">")
        else:
            self.word(parts[0] if kind == "named" else kind, node)

    def path(self, node):
        self.word(node.parts[0], node)
        for step in node.parts[1]:
            self.word("."), self.word(str(step))

    def atom(self, node):
        kind = node.kind
        if kind == "path":
            self.path(node)
        elif kind in ("null", "default"):
            self.word(kind, node), self.word("<"), self.type(node.parts[0]), self.word(">")
        elif kind == "unit":
            self.word("()", node)
        else:
            self.word(str(node.parts[0]), node)

    def call(self, node):
        callee, args, bound = node.parts
        self.word(callee, node)
        if bound is not None:
            self.word("["), self.word(str(bound.parts[0]), bound)
            for less in bound.parts[1:]:
                self.word("-"), self.word(str(less))
            self.word("]")
        self.word("(")
        for place, arg in enumerate(args):
            if place:
                self.word(",")
            self.word(arg.parts[0], arg)
        self.word(")")

    def right(self, node):
        kind, parts = node.kind, node.parts
        if kind == "one":
            self.atom(parts[0])
        elif kind == "two":
            self.word("(", node), self.atom(parts[0]), self.word(","), self.atom(parts[1]), self.word(")")
        elif kind == "not":
            self.word("not"), self.atom(parts[0])
        elif kind == "op":
            self.atom(parts[1]), self.word(parts[0]), self.atom(parts[2])
        elif kind == "alloc":
            self.word("alloc"), self.word("<"), self.type(parts[0]), self.word(">")
        else:
            self.call(node)

    def block(self, stmts):
        self.word("{")
        for stmt in stmts:
            self.stmt(stmt)
        self.word("}")

    def stmt(self, node):
        kind, parts = node.kind, node.parts
        if node.at is None:
            node.at = len(self.text) + 1
        if kind == "let":
            forward, target, right = parts
            self.word("let"), self.word(target.parts[0], target), self.word("<-" if forward else "->"), self.right(right), self.word(";")
        elif kind == "swap":
            self.path(parts[0]), self.word("<->"), self.path(parts[1]), self.word(";")
        elif kind == "memswap":
            self.word("*"), self.path(parts[0]), self.word("<->"), self.path(parts[1]), self.word(";")
        elif kind == "if":
            self.word("if"), self.path(parts[0]), self.block(parts[1])
            if parts[2] is not None:
                node.other = len(self.text) + 1
                self.word("else"), self.block(parts[2])
        elif kind == "with":
            self.word("with"), self.block(parts[0]), self.word("do"), self.block(parts[1])
        elif kind == "block":
            self.block(parts[0])
        else:
            self.word("skip"), self.word(";")

    def program(self, aliases, funs):
        for name, written in aliases:
            self.word("type"), self.word(name.parts[0], name), self.word("="), self.type(written), self.word(";")
        for fun in funs:
            self.word("fun"), self.word(fun["name"].parts[0], fun["name"])
            if fun["bound"] is not None:
                self.word("["), self.word(fun["bound"]), self.word("]")
            self.word("(")
            for place, (name, written) in enumerate(fun["params"]):
                if place:
                    self.word(",")
                self.word(name.parts[0], name), self.word(":"), self.type(written)
            self.word(")"), self.word("->"), self.type(fun["result"]), self.word("{")
            for stmt in fun["body"]:
                self.stmt(stmt)
            self.word("return", fun["return"]), self.word(fun["returned"].parts[0], fun["returned"]), self.word(";"), self.word("}")
