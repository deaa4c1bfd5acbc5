"""Random programs that keep every rule of docs/RULES.md, as the trees of `trees`.

Beside the parts that are printed, a function has "types", the type of each of its names. A type is ("uint",), ("bool",), ("()",),
("pair", T, U), or ("ptr", the printed form of the target).
"""
from collections import namedtuple

from trees import Node, nodes, overlap, reverse, text_of

UINT, BOOL, UNIT = ("uint",), ("bool",), ("()",)
OPERANDS = {"+": UINT, "-": UINT, "*": UINT, "<": UINT, "&&": BOOL, "||": BOOL, "==": None, "!=": None}

# A statement of an open sequence, the names that it mentions, those of them that are live before and after it, and the held names.
Step = namedtuple("Step", "stmt touched before after held")
Path = namedtuple("Path", "root steps type")


def names_in(part):
    """The variables that a tree mentions."""
    return {node.parts[0] for node in nodes(part) if node.kind in ("path", "name")}


class Types:
    """The types that written types denote, and the targets of pointers by their printed forms."""

    def __init__(self):
        self.declared, self.targets = {}, {}

    def of(self, written):
        kind, parts = written.kind, written.parts
        if kind == "pair":
            return ("pair", self.of(parts[0]), self.of(parts[1]))
        if kind == "ptr":
            self.targets[text_of(parts[0])] = parts[0]
            return ("ptr", text_of(parts[0]))
        return self.of(self.declared[parts[0]]) if kind == "named" else (kind,)

    def target(self, pointer):
        """The type of the target of a pointer type."""
        return self.of(self.targets[pointer[1]])


def size(funs, fun, bound, known):
    """How many statements a function runs, with both branches of each `if` and the setup of each `with` twice."""

    def of_stmt(stmt):
        kind, parts = stmt.kind, stmt.parts
        if kind == "let" and parts[2].kind == "call":
            callee, _, given = parts[2].parts
            return 1 + size(funs, next(fun for fun in funs if fun["name"].parts[0] == callee), number_of(given, bound), known)
        if kind == "if":
            return 1 + of_all(parts[1]) + of_all(parts[2] or [])
        if kind == "with":
            return 1 + 2 * of_all(parts[0]) + of_all(parts[1])
        return 1 + of_all(parts[0]) if kind == "block" else 1

    def of_all(stmts):
        return sum(map(of_stmt, stmts))

    key = fun["name"].parts[0], bound
    if key not in known:
        known[key] = 0 if bound == 0 else of_all(fun["body"])
    return known[key]


def number_of(given, bound):
    """The number of the bound of a call, where the caller's bound is `bound`."""
    if given is None or given.kind == "number":
        return given and given.parts[0]
    return max(0, bound - sum(given.parts[1:]))


class Body:
    """Makes the body of a function. `live` has the types of the live names, and `types` those of all names so far."""

    def __init__(self, maker, fun):
        self.maker, self.fun, self.numbers = maker, fun, maker.numbers
        self.types = {name.parts[0]: maker.types.of(written) for name, written in fun["params"]}
        self.params, self.live, self.held, self.open, self.pinned = dict(self.types), dict(self.types), frozenset(), [], []

    def chance(self, share):
        return self.numbers.random() < share

    def make(self):
        wanted = self.maker.types.of(self.fun["result"])
        self.open.append([])
        while len(self.open[0]) < 2:
            self.stmts(6, 2)
        made = [name for name, found in self.live.items() if name not in self.params and found == wanted]
        if not made or self.chance(0.5):
            made = [self.let(wanted, f"v{len(self.types)}")]
        returned = self.numbers.choice(made)
        self.reach({**self.params, returned: wanted})
        self.fun.update({"body": [step.stmt for step in self.open.pop()], "returned": Node("name", returned), "types": self.types})

    # the sequence of statements that is being made

    def add(self, stmt, live):
        """Adds a statement after which these names are live."""
        touched = names_in(stmt)
        self.open[-1].append(Step(stmt, touched, touched & set(self.live), touched & set(live), self.held))
        self.live = live

    def sequence(self, most, depth, goal=None):
        """A sequence of its own; at its end the names are live that `goal` makes of those that would be."""
        self.open.append([])
        self.stmts(most, depth)
        if goal is not None:
            self.reach(goal(self.live))
        return [step.stmt for step in self.open.pop()]

    def stmts(self, most, depth):
        kinds = [self.let] * 4 + [self.call] * 4 + [self.undo, self.unlet, self.swap, self.update] * 2 + [self.memswap] * 3
        nested = [self.branch] * 4 + [self.around] * 3 + [self.block] * 2
        for _ in range(0 if self.chance(0.1) else self.numbers.randrange(1, most + 1)):
            if self.chance(0.03):
                self.add(Node("skip"), self.live)
            elif depth and self.chance(0.3):
                self.numbers.choice(nested)(depth - 1)
            else:
                self.numbers.choice(kinds)()

    def can_undo(self, step):
        """Whether the reverse of a statement is right here: it mentions the same live names, and none that is held only now."""
        return step.touched & set(self.live) == step.after and not step.touched & (self.held - step.held)

    def undo(self, step=None):
        """Adds the reverse of an earlier statement."""
        steps = [step for steps in self.open for step in steps if self.can_undo(step)]
        if step or steps:
            step = step or self.numbers.choice(steps)
            live = {name: found for name, found in self.live.items() if name not in step.after}
            self.add(reverse([step.stmt])[0].copy(), {**live, **{name: self.types[name] for name in sorted(step.before)}})

    def reach(self, goal):
        """Adds statements after which exactly the names of `goal` are live, with the reverses of earlier ones where these help."""
        for step in reversed([step for steps in self.open for step in steps]):
            changed = step.before ^ step.after
            if changed and self.can_undo(step) and all((name in step.before) == (name in goal) for name in changed):
                self.undo(step)
        for name in [name for name in reversed(self.live) if name not in goal]:
            self.unlet(name)
        for name in [name for name in goal if name not in self.live]:
            self.let(goal[name], name)

    # names, paths and right sides

    def writable(self):
        """The names that are not held. Often without those that a later reverse of an open statement reads: a write there sticks it."""
        names = set(self.live) - self.held
        if self.chance(self.maker.daring):
            return names
        return names.difference(*self.pinned, *(step.touched for steps in self.open for step in steps if step.before != step.after))

    def paths(self, wanted=None, but=None):
        found, wait = [], [Path(name, [], self.live[name]) for name in reversed(self.live) if name != but]
        while wait:
            path = wait.pop()
            found.append(path)
            if path.type[0] == "pair":
                wait += [Path(path.root, path.steps + [step], path.type[step]) for step in (1, 2)]
        return [path for path in found if wanted is None or path.type == wanted]

    def fresh(self, wanted):
        """A name that is not live; at times one that has been, with this type."""
        free = [name for name, found in self.types.items() if name not in self.live and found == wanted]
        return self.numbers.choice(free) if free and self.chance(0.4) else f"v{len(self.types)}"

    def some_type(self):
        pool, live = self.maker.pool, list(dict.fromkeys(path.type for path in self.paths()))
        return self.numbers.choice(pool if self.chance(0.4) or not live else live)

    def atom(self, wanted, but, unlike=None):
        """An atom of this type without this name. It is not the path `unlike`."""
        paths = [path for path in self.paths(wanted, but) if unlike is None or [path.root, path.steps] != list(unlike.parts)]
        made = [path for path in paths if path.root not in self.params]
        if paths and self.chance(0.8):
            return path_node(self.numbers.choice(made if made and self.chance(0.6) else paths))
        if self.chance(0.2):
            return Node("default", self.maker.spell(wanted))
        if wanted[0] == "ptr":
            return Node("null", self.maker.types.targets[wanted[1]].copy())
        if wanted == UINT:
            return Node("number", self.numbers.randrange(8))
        if wanted == BOOL:
            return Node("truth", self.numbers.choice(("true", "false")))
        return Node("unit") if wanted == UNIT else Node("default", self.maker.spell(wanted))

    def right(self, wanted, target):
        """A right side of this type for this target. No call lacks an argument."""
        kinds = {"uint": ["op"] * 3, "bool": ["op"] * 3 + ["not"], "()": [], "pair": ["two"] * 3, "ptr": ["alloc"] * 3}[wanted[0]]
        calls = [call for call in map(lambda fun: self.arguments(fun, target), self.callees(wanted)) if call]
        kind = self.numbers.choice(["one"] + kinds + ["call"] * (2 * bool(calls)))
        if kind == "one":
            return Node(kind, self.atom(wanted, target))
        if kind == "two":
            return Node(kind, self.atom(wanted[1], target), self.atom(wanted[2], target))
        if kind == "not":
            return Node(kind, self.atom(BOOL, target))
        if kind == "alloc":
            return Node(kind, self.maker.types.targets[wanted[1]].copy())
        if kind == "call":
            return self.numbers.choice(calls)
        sign = self.numbers.choice(["+", "-", "*"] if wanted == UINT else ["<", "==", "==", "!=", "!=", "&&", "||"])
        pairs = [path.type for path in self.paths(but=target) if path.type[0] == "pair"]
        operand = OPERANDS[sign] or (self.numbers.choice(pairs) if pairs and self.chance(0.5) else self.some_type())
        first = self.atom(operand, target)
        return Node(kind, sign, first, self.atom(operand, target, first))

    # calls

    def callees(self, wanted=None):
        """The functions that this one may call, with a result of this type."""
        funs = [fun for fun in self.maker.funs if fun is not self.fun] * 2 + [self.fun] * bool(self.fun["bound"])
        return [fun for fun in funs if wanted is None or self.maker.types.of(fun["result"]) == wanted]

    def arguments(self, callee, target, lets=False):
        """A call with live names as its arguments. A missing argument is assigned before, if `lets`; otherwise there is no call."""
        writable, names = self.writable(), []
        for place, (_, written) in enumerate(callee["params"]):
            wanted = self.maker.types.of(written)
            free = set(self.live) - self.held if place not in callee.get("writes", range(9)) else writable
            fit = [name for name, found in self.live.items() if found == wanted and name in free and name != target and name not in names]
            if not fit and not lets:
                return None
            if fit:
                names.append(self.numbers.choice(fit))
            else:
                names.append(self.fresh(wanted))
                self.let(wanted, names[-1], plain=True)
        return Node("call", callee["name"].parts[0], [Node("name", name) for name in names], self.bound(callee))

    def bound(self, callee):
        own = self.fun["bound"]
        if callee["bound"] is None:
            return None
        if callee is self.fun:
            return Node("own", own, self.numbers.choice((1, 1, 1, 2, 255)))
        if own is None or self.chance(0.4):
            return Node("number", self.numbers.choice((0, 1, 2, 3)))
        return Node("own", own) if self.chance(0.5) else Node("own", own, self.numbers.choice((0, 1, 2, 255)))

    # statements

    def let(self, wanted=None, name=None, plain=False):
        wanted = wanted or self.some_type()
        name = name or self.fresh(wanted)
        plain = plain and (wanted[0] != "ptr" or self.chance(0.5))
        right = Node("one", self.atom(wanted, name)) if plain else self.right(wanted, name)
        self.types.setdefault(name, wanted)
        self.add(Node("let", True, Node("name", name), right), {**self.live, name: wanted})
        return name

    def unlet(self, name=None):
        """Un-assigns a name, from a value that it may not have."""
        names = [name for name in self.live if name not in self.held]
        if name is None and not (names and self.chance(self.maker.daring)):
            return
        name = name or self.numbers.choice(names)
        wanted = self.live[name]
        if self.chance(0.5):
            right = self.right(wanted, name)
        elif wanted[0] == "ptr":
            right = Node("alloc", self.maker.types.targets[wanted[1]].copy())
        else:
            right = Node("one", Node("default", self.maker.spell(wanted)))
        self.add(Node("let", False, Node("name", name), right), {other: found for other, found in self.live.items() if other != name})

    def call(self):
        callees = self.callees()
        if callees:
            callee = self.numbers.choice(callees)
            wanted = self.maker.types.of(callee["result"])
            call = self.arguments(callee, None, lets=True)
            name = self.fresh(wanted)
            self.types.setdefault(name, wanted)
            self.add(Node("let", True, Node("name", name), call), {**self.live, name: wanted})

    def swap(self):
        free = self.writable()
        paths = [path for path in self.paths() if path.root in free]
        pairs = [(path_node(left), path_node(right)) for left in paths for right in paths if left.type == right.type]
        pairs = [pair for pair in pairs if not overlap(*pair)]
        if pairs:
            self.add(Node("swap", *self.numbers.choice(pairs)), self.live)

    def update(self):
        """Adds to a word, or exchanges a truth value if another is true: so that what is computed is seen in a result."""
        free = self.writable()
        paths = [path for path in self.paths() if path.root in free and path.type in (UINT, BOOL)]
        if paths:
            path = self.numbers.choice(paths)
            other, target = self.atom(path.type, path.root), self.fresh(path.type)
            sign, back = self.numbers.choice((("+", "-"), ("-", "+")) if path.type == UINT else (("!=", "!="), ("==", "==")))
            self.types.setdefault(target, path.type)
            self.add(Node("let", True, Node("name", target), Node("op", sign, path_node(path), other)), {**self.live, target: path.type})
            self.add(Node("swap", Node("path", target, []), path_node(path)), self.live)
            live = {name: found for name, found in self.live.items() if name != target}
            self.add(Node("let", False, Node("name", target), Node("op", back, path_node(path), other)), live)

    def memswap(self):
        pointers = [path for path in self.paths() if path.type[0] == "ptr"]
        if not pointers:
            return
        left = self.numbers.choice(pointers)
        wanted, free = self.maker.types.target(left.type), self.writable()
        rights = [path for path in self.paths(wanted) if path.root in free and not overlap(path_node(left), path_node(path))]
        if not rights or self.chance(0.3):
            rights = [Path(self.let(wanted, plain=True), [], wanted)]
        self.add(Node("memswap", path_node(left), path_node(self.numbers.choice(rights))), self.live)

    def branch(self, depth):
        """An `if`. With an `else`, both branches end with the same live names; without, the branch often un-assigns a name."""
        if not self.paths(BOOL):
            self.let(BOOL)
        path = self.numbers.choice(self.paths(BOOL))
        before, held = self.live, self.held
        self.held = held | {path.root}
        gone = {self.numbers.choice(list(before))} - self.held if self.chance(0.3) else set()
        first, other = self.sequence(3, depth, lambda live: {name: live[name] for name in live if name not in gone}), None
        after = self.live
        if not gone and self.chance(0.6):
            self.live = before
            other = self.sequence(3, depth, lambda _: after)
        self.live, self.held = before, held
        self.add(Node("if", path_node(path), first, other), after)

    def around(self, depth):
        """A `with`: the names that its setup mentions are live after its work exactly if they are before it."""
        before = self.live
        setup, ready = self.sequence(3, depth), self.live
        pinned = names_in(setup)

        def with_pinned(live, other):
            return {**{name: live[name] for name in live if name not in pinned}, **{name: other[name] for name in other if name in pinned}}

        self.pinned.append(pinned)
        work = self.sequence(3, depth, lambda live: with_pinned(live, ready))
        self.pinned.pop()
        after, self.live = with_pinned(self.live, before), before
        self.add(Node("with", setup, work), after)

    def block(self, depth):
        before = self.live
        stmts = self.sequence(3, depth)
        after, self.live = self.live, before
        self.add(Node("block", stmts), after)


def path_node(path):
    return Node("path", path.root, path.steps)


class Maker:
    """Makes a program. `pool` are the types that it uses most, and `daring` the share of writes that may stick a later statement."""

    def __init__(self, numbers):
        self.numbers, self.types, self.aliases, self.funs = numbers, Types(), [], []
        self.daring = numbers.choice((0.05, 0.2, 0.5))

    def written(self, depth, names):
        kinds = ["uint", "bool", "()"] + ["pair", "pair", "ptr", "ptr"] * (depth > 0) + ["named"] * bool(names)
        kind = self.numbers.choice(kinds)
        if kind == "pair":
            return Node(kind, self.written(depth - 1, names), self.written(depth - 1, names))
        if kind == "ptr":
            return Node(kind, self.written(depth - 1, [name.parts[0] for name, _ in self.aliases]))
        return Node(kind, self.numbers.choice(names)) if kind == "named" else Node(kind)

    def spell(self, wanted):
        """A written type that denotes this type; at times an alias."""
        names = [name for name, written in self.types.declared.items() if self.types.of(written) == wanted]
        if names and self.numbers.random() < 0.5:
            return Node("named", self.numbers.choice(names))
        if wanted[0] == "pair":
            return Node("pair", self.spell(wanted[1]), self.spell(wanted[2]))
        return Node("ptr", self.types.targets[wanted[1]].copy()) if wanted[0] == "ptr" else Node(wanted[0])

    def alias(self, place):
        """An alias of the earlier ones outside pointers, and of itself under them."""
        names = [name.parts[0] for name, _ in self.aliases]
        self.aliases.append((Node("name", f"t{place}"), None))
        list_of = Node("pair", self.written(0, names), Node("ptr", Node("named", f"t{place}")))
        written = list_of if self.numbers.random() < 0.5 else self.written(2, names)
        self.aliases[-1] = (self.aliases[-1][0], written)
        self.types.declared[f"t{place}"] = written

    def fun(self, place):
        names = "abcd"[: self.numbers.choice((0, 1, 2, 2, 3, 3, 4))]
        params = [(Node("name", name), self.spell(self.numbers.choice(self.pool))) for name in names]
        result = self.spell(self.numbers.choice(self.pool + [("pair", BOOL, UINT), ("pair", BOOL, BOOL)]))
        bound = self.numbers.choice((None, None, "n", "n", "a"))
        fun = {"name": Node("name", f"f{place}"), "bound": bound, "params": params, "result": result, "return": Node("return")}
        self.funs.append(fun)
        Body(self, fun).make()
        written = self.writes(fun["body"])
        fun["writes"] = {place for place, (name, _) in enumerate(params) if name.parts[0] in written}

    def writes(self, stmts):
        """The names that statements write."""
        out = set()
        for stmt in stmts:
            kind, parts = stmt.kind, stmt.parts
            if kind == "let":
                out.add(parts[1].parts[0])
                if parts[2].kind == "call":
                    callee = next(fun for fun in self.funs if fun["name"].parts[0] == parts[2].parts[0])
                    out |= {arg.parts[0] for place, arg in enumerate(parts[2].parts[1]) if place in callee.get("writes", range(9))}
            elif kind == "swap":
                out |= {parts[0].parts[0], parts[1].parts[0]}
            elif kind == "memswap":
                out.add(parts[1].parts[0])
            else:
                out |= set().union(*(self.writes(part) for part in parts if isinstance(part, list)))
        return out

    def program(self):
        """The aliases and functions of a program."""
        for place in range(self.numbers.choice((0, 1, 1, 2))):
            self.alias(place)
        names = [name.parts[0] for name, _ in self.aliases]
        target = self.numbers.choice([Node("uint"), Node("bool"), *(Node("named", name) for name in names * 4)])
        pool = [Node("ptr", target), Node("ptr", self.spell(self.types.of(target)))] * 2
        pool += [self.written(2, names), Node("pair", self.written(1, names), self.written(1, names))]
        self.pool = [UINT, UINT, BOOL, BOOL] + [self.types.of(written) for written in pool]
        for place in range(self.numbers.randrange(1, 4)):
            self.fun(place)
        return self.aliases, self.funs
