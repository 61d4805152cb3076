"""Random tables and models: models that fit their tables, written in every form a solver may choose, and damaged ones.

Now and then a form is taken that the crate reads and document 01 refuses (a bare `none`, a bare empty record, a
body headed `=`, an `or` whose result is no bool), so that those rules are met too.
A model is made as nested lists of tokens, so that damage can be done to a node.
"""

PLAIN = {"bool": b"Bool", "string": b"String", "decimal": b"Decimal", "datetime": b"Datetime", "duration": b"Duration"}
WIDTHS = [1, 2, 3, 4, 5, 8, 16, 63, 64, 65, 127, 128]
HEAVIEST = 24
STRAY = [b"true", b"false", b"none", b"zork", b"a", b"or", b"=", b"ite", b"_", b"as", b"Bool", b"String", b"IPAddr", b"N0", b"N1", b"m0",
         b"define-fun", b"set.empty", b"7", b"0", b"4294967296", b"#b1", b"#x7f", b"#b0" + b"1" * 128, b'"s"', b'""']


class Tables:
    """Random rows without equals, each reference to a lower row."""

    def __init__(self, rng):
        self.rng = rng
        self.rows, self.weights = [], []
        for _ in range(rng.randrange(2, 13)):
            self.add_row()
        self.vars = [(f"x{at}", rng.randrange(len(self.rows))) for at in range(rng.randrange(1, 4))]
        self.funs = [(f"f{at}", rng.randrange(len(self.rows)), self.result()) for at in range(rng.randrange(3))]
        entities = [row for row, sort in enumerate(self.rows) if sort[0] == "entity"]
        self.enums = [(f"m{at}", rng.choice(entities), rng.choice(["", "b", "\u00e9 x"])) for at in range(rng.randrange(3))] if entities else []

    def result(self):
        """A function's result; bool often, for the bodies that need it."""
        bools = [row for row, sort in enumerate(self.rows) if sort == ("bool",)]
        return self.rng.choice(bools or range(len(self.rows))) if self.rng.randrange(3) else self.rng.randrange(len(self.rows))

    def add_row(self):
        rng = self.rng
        kind = rng.choice(["bool", "bool", "string", "decimal", "datetime", "duration", "bitvec", "bitvec", "option", "option", "set", "entity", "record"])
        lower = len(self.rows)
        if kind == "bitvec":
            sort = (kind, rng.choice(WIDTHS))
        elif kind in ("option", "set") and lower:
            sort = (kind, rng.randrange(lower))
        elif kind == "entity":
            sort = (kind, f"N{lower}" if rng.randrange(20) else "IPAddr")
        elif kind == "record":
            sort = (kind, f"N{lower}", *(rng.randrange(lower) for _ in range(rng.randrange(4)) if lower))
        else:
            sort = (kind if kind in PLAIN else "bool",)
        weight = 1 + sum(self.weights[part] for part in sort[1:] if kind in ("option", "set", "record") and isinstance(part, int))
        if sort not in self.rows and weight <= HEAVIEST:
            self.rows.append(sort)
            self.weights.append(weight)

    def text(self):
        lines = ["sort=" + " ".join(map(str, sort)) for sort in self.rows]
        lines += [f"var={name} {row}" for name, row in self.vars]
        lines += [f"fun={name} {arg} {out}" for name, arg, out in self.funs]
        lines += [f"enum={name} {row} {text}" for name, row, text in self.enums]
        return "".join(line + "\n" for line in lines).encode()

    def sort(self, row):
        """A row as a model writes it."""
        kind, *parts = self.rows[row]
        if kind == "bitvec":
            return [b"_", b"BitVec", b"%d" % parts[0]]
        if kind in ("option", "set"):
            return [b"Option" if kind == "option" else b"Set", self.sort(parts[0])]
        return PLAIN.get(kind) or parts[0].encode()

    def value(self, row):
        """A random value of a row's sort."""
        kind, *parts = self.rows[row]
        return getattr(self, kind)(row, *parts)

    def bool(self, _row):
        return self.rng.choice([b"true", b"false"])

    def string(self, _row):
        return self.rng.choice([b'""', b'"a"', b'"""q"""', b'"\\u{e9}"', b'"\\u0041"', b'"\xc3\xa9"', b'"\\u{2ffff}"', b'"\\"', b'"; ("', b'"ab"'])

    def bitvec(self, _row, width):
        number = self.rng.choice([0, 1 % 2 ** width, 2 ** width - 1, 2 ** (width - 1), self.rng.randrange(2 ** width)])
        forms = [b"#b" + f"{number:0{width}b}".encode(), [b"_", b"bv%d" % number, b"%d" % width]]
        if width % 4 == 0:
            forms += [b"#x" + f"{number:0{width // 4}x}".encode(), b"#x" + f"{number:0{width // 4}X}".encode()]
        return self.rng.choice(forms)

    def signed(self, name):
        number = self.rng.choice([0, 1, 2 ** 63 - 1, 2 ** 63, 2 ** 64 - 1, self.rng.randrange(2 ** 64)])
        return [name, b"#x%016x" % number if self.rng.randrange(4) else b"#b" + f"{number:064b}".encode()]

    def decimal(self, _row):
        return self.signed(b"Decimal")

    def datetime(self, _row):
        return self.signed(b"Datetime")

    def duration(self, _row):
        return self.signed(b"Duration")

    def option(self, row, inner):
        pick = self.rng.randrange(16)
        if pick == 0:
            return b"none"
        if pick < 6:
            return [b"as", b"none", self.sort(row)]
        return [b"some" if pick < 11 else [b"as", b"some", self.sort(row)], self.value(inner)]

    def set(self, row, inner):
        out = [b"as", b"set.empty", self.sort(row)]
        for _ in range(self.rng.randrange(4)):
            one = [b"set.singleton", self.value(inner)]
            out = self.rng.choice([one, [b"set.union", one, out], [b"set.union", out, one]])
        return out

    def entity(self, row, name):
        members = [member.encode() for member, owner, _ in self.enums if owner == row]
        return self.rng.choice(members + [[name.encode(), self.string(row)]])

    def record(self, _row, name, *fields):
        if not fields and not self.rng.randrange(4):
            return name.encode()
        return [name.encode(), *(self.value(field) for field in fields)]

    def body(self, arg, out):
        rng = self.rng
        tests = [rng.choice([[b"=", b"a", key], [b"=", key, b"a"]]) for key in (self.value(arg) for _ in range(rng.randrange(5)))]
        if rng.randrange(20) == 0 or self.rows[out] == ("bool",) and rng.randrange(2):
            return tests[0] if len(tests) == 1 and rng.randrange(2) else [b"or", *tests]
        body = self.value(out)
        for test in tests:
            body = [b"ite", test, self.value(out), body]
        return body

    def model(self):
        """Definitions of the tables' names, some left out, some twice, among others that are to be skipped."""
        rng = self.rng
        out = [[b"define-fun", name.encode(), [], self.sort(row), self.value(row)] for name, row in self.vars]
        out += [[b"define-fun", name.encode(), [[b"a", self.sort(arg)]], self.sort(res), self.body(arg, res)] for name, arg, res in self.funs]
        out += [rng.choice(out)] if out and not rng.randrange(4) else []
        out += [[b"define-fun", rng.choice([b"h", b"x0", b"f0"]), rng.choice([[], [[b"y", b"Zork"]]]), b"Zork", [b"let", []]]] if not rng.randrange(6) else []
        rng.shuffle(out)
        return out if rng.randrange(8) else out[1:]


def nodes(tree):
    """Every place below a node, as the list it stands in and its index."""
    for at, node in enumerate(tree):
        yield tree, at
        if isinstance(node, list):
            yield from nodes(node)


def last_part(command):
    """Every place in the value or body of a command."""
    if isinstance(command, list) and command:
        yield command, len(command) - 1
        if isinstance(command[-1], list):
            yield from nodes(command[-1])


def stray(rng, tables, model):
    """A node from elsewhere: a stray token, a value or sort of another row, an operator, another part of the model."""
    row = rng.randrange(len(tables.rows))
    pick = rng.randrange(8)
    if pick < 3:
        return rng.choice(STRAY)
    if pick == 3:
        return tables.value(row)
    if pick == 4:
        return tables.sort(row)
    if pick == 5:
        return [rng.choice([b"some", b"set.singleton", b"Option", b"Set", b"N0", b"N1", b"bvnego"]), rng.choice([tables.value(row), tables.sort(row), b"none"])]
    if pick == 6:
        return rng.choice([[], [b"none"], [b"=", b"a", tables.value(row)], [b"or"], [b"set.union", b"true", b"true"], [b"as", b"none", b"Bool"],
                           [b"_", b"bv+5", b"8"], [b"_", b"bv", b"0"], [b"_", b"bv300", b"8"], [b"_", b"BitVec", b"0"], [b"as", b"set.empty", b"Bool"]])
    place, at = rng.choice(list(nodes(model)))
    # A copy, for the place to be filled may lie inside this very node.
    return copied(place[at])


def damage(rng, tables, model):
    """One fault at a random node: it is replaced, taken out, doubled, or trades places with the next."""
    if not model:
        return
    # Mostly in a value or a body, for there most rules lie.
    place, at = rng.choice(list(last_part(rng.choice(model)) if rng.randrange(4) else nodes(model)) or [(model, 0)])
    pick = rng.randrange(6)
    if pick < 3:
        place[at] = stray(rng, tables, model)
    elif pick == 3:
        del place[at]
    elif pick == 4:
        place.insert(at, place[at])
    elif at + 1 < len(place):
        place[at], place[at + 1] = place[at + 1], place[at]


def copied(tree):
    """A model whose parts are shared with no other, so that damage strikes one place."""
    return [copied(node) for node in tree] if isinstance(tree, list) else tree


def written(tree):
    if isinstance(tree, bytes):
        return tree
    return b"(" + b" ".join(map(written, tree)) + b")"


def random_case(rng):
    """Tables and a model, half of the models damaged once or twice."""
    tables = Tables(rng)
    while not tables.rows:
        tables = Tables(rng)
    model = copied(tables.model())
    for _ in range(rng.choice([0, 0, 1, 1, 2])):
        damage(rng, tables, model)
        model = copied(model)
    return tables.text(), written(model)
