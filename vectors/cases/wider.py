"""Random tables and models wider than those of cases/models.py: what a comparison of millions of models has to meet besides.

Names with bars and other odd letters, members named like sorts, arguments named like anything; bodies with equal keys in other notations,
sets with repeated members, long runs of both; operators; sorts without a row and vectors wider than any row; bodies headed `=`; nesting
about level 1,023; tables that break a rule; replies that the reader refuses.
"""

from cases import models
from cases.models import copied, damage, last_part, nodes, stray

MOST_ROWS, MOST_ARMS, MOST_MEMBERS = 30, 24, 8
DEEPEST = 1023
ODD = ["|x|", "x|", "|", "x=1", "\u00e9", "\\", "x'", "a.b", "-", "X_0!", "|N0|", "N0"]
# Kept words and words of models bind neither variables nor functions nor arguments.
WORDS = ["true", "none", "or", "ite", "=", "as", "define-fun", "Bool", "BitVec", "a"]
TEXTS = ["", "b", "\u00e9 x", " ", "a  b ", "sort=bool", "\U0001f600", "long " * 12]
STRINGS = [b'"%s"' % inside for inside in (
    b"\\u{0}", b"\\u{10000}", b"\xff\x80", b"\\u{000041}", b"\\u{0000041}", b"\n", b" ", b"|", b"true", b"\\u41", b"ab" * 40)]
DEEP_TABLES = b"sort=bool\nsort=record R 0\nsort=decimal\nsort=bitvec 8\nsort=entity E\nvar=x 1\nfun=f 0 0\nfun=g 0 1\nenum=m 4 x\n"
DEEP_FORMS = [(b"(some", b")"), (b"((as some Bool)", b")"), (b"(set.singleton", b")"), (b"(set.union", b" m)"), (b"(set.union m", b")"),
              (b"(R", b")"), (b"(R", b")")]
DEEP_CORES = [b" true", b" m", b" zork", b"(Decimal #x0000000000000000)", b"(_ bv1 8)", b"(as none Bool)", b"((as some Bool) true)",
              b"(not true)", b'(E"")', b" #b1"]
DEEP_VALUES = [b"((define-fun f((a Bool))Bool(or(= a %s))))", b"((define-fun f((a Bool))Bool(ite(= %s a)true false)))",
               b"((define-fun g((a Bool))R %s))", b"((define-fun g((a Bool))R(ite(= a true)%s(R true))))", b"((define-fun x()R %s))",
               b"((define-fun h()R %s)(define-fun x()R(R true)))"]
DEEP_SORTS = [b"((define-fun x()%s true))", b"((define-fun x()R(as none %s)))", b"((define-fun f((a Bool))Bool(or(= a(as set.empty %s)))))",
              b"((define-fun f((a %s))Bool true))"]
LARGE_TABLES = b"sort=bool\nsort=string\nsort=set 1\nsort=set 2\nsort=record R 1 2\nvar=x 2\nvar=y 3\nfun=f 1 1\nfun=g 1 0\nfun=h 2 4\n"
SEPARATORS = [b" ", b"\n", b"\t", b"\r\n", b"\x0c", b" ; c (\"#\n", b"  ", b";\n"]


def many(text):
    """Nodes written one after the other, without strings that hold spaces or brackets."""
    open_lists = [[]]
    for token in text.replace("(", " ( ").replace(")", " ) ").split():
        if token == "(":
            open_lists.append([])
        elif token == ")":
            node = open_lists.pop()
            open_lists[-1].append(node)
        else:
            open_lists[-1].append(token.encode())
    return open_lists[0]


SORTS = many("Bool String Decimal Datetime Duration IPAddr Zork (_ BitVec 8) (_ BitVec 7) (_ BitVec 128) (_ BitVec 129) (_ BitVec 4294967295)"
             "(_ BitVec 4294967296) (_ BitVec 0) (_ BitVec 08) (_ BitVec #x8)")
# Vectors at the edges of their widths, and notations of them that are refused.
ALL, HALF = 2 ** 128 - 1, 2 ** 127
WIDE = [b"#b" + digits for digits in (b"0" * 128, b"1" + b"0" * 127, b"1" * 128, b"0" + b"1" * 128, b"0" * 200, b"1" + b"0" * 128)]
WIDE += [b"#x" + digits for digits in (b"0" * 32 + b"f", b"0" + b"f" * 32, b"0" + b"8" * 32, b"1" + b"0" * 32)]
WIDE += many(f"(_ bv{ALL} 129) (_ bv{ALL} 128) (_ bv{ALL + 1} 128) (_ bv{HALF} 127) (_ bv{HALF} 128) (_ bv1 200) (_ bv0 129) (_ bv0 4294967296)"
             "(_ bv+1 1) (_ bv++1 1) (_ bv007 3) (_ bv8 3) (_ bv1 01) (_ bv 1) (_ bv-1 1) (_ bv1 0) (_ bvx 0) (_ bv1 x) (_ bv1) (_ b1 1)")


def few(rng, most):
    """Mostly little, now and then up to the most."""
    return rng.randrange(most + 1) if not rng.randrange(12) else rng.randrange(5)


class Tables(models.Tables):
    """Rows as in cases/models.py, more of them, with other names."""

    def __init__(self, rng):
        self.rng = rng
        self.rows, self.weights, self.enums = [], [], []
        for _ in range(1 + few(rng, MOST_ROWS) * 3):
            self.add_row()
        self.name_rows()
        names = self.names()
        self.vars = [(next(names), rng.randrange(len(self.rows))) for _ in range(rng.randrange(1, 4))]
        # A variable and a function may have one name.
        names = self.names()
        self.funs = [(next(names), rng.randrange(len(self.rows)), self.result()) for _ in range(rng.randrange(4))]
        self.enums = self.members()
        self.arg = rng.choice([b"a", b"a", b"a", b"x!0", *(word.encode() for word in WORDS + ODD), *(name.encode() for name, *_ in self.enums)])

    def name_rows(self):
        """Some names of sorts become odd ones, each once."""
        odd = [name for name in ODD if name != "N0"]
        self.rng.shuffle(odd)
        taken = {sort[1] for sort in self.rows if sort[0] in ("entity", "record")}
        for row, sort in enumerate(self.rows):
            if sort[0] in ("entity", "record") and not self.rng.randrange(4):
                name = odd.pop()
                if name not in taken:
                    self.rows[row] = (sort[0], name, *sort[2:])
                if not odd:
                    return

    def names(self):
        rng = self.rng
        used = set()
        for at in range(99):
            name = rng.choice([f"x{at}", f"x{at}", f"f{at}", rng.choice(ODD), rng.choice(WORDS)])
            name = f"y{at}" if name in used else name
            used.add(name)
            yield name

    def members(self):
        """Enum members, some of them named like sorts."""
        rng = self.rng
        entities = [row for row, sort in enumerate(self.rows) if sort[0] == "entity"]
        sorts = [sort[1] for sort in self.rows if sort[0] in ("entity", "record")]
        found = {}
        for at in range(rng.randrange(5) if entities else 0):
            name = rng.choice([f"m{at}", f"m{at}", rng.choice(sorts), rng.choice(ODD[:-1])])
            # Equal texts make members equal.
            found[name] = (name, rng.choice(entities), rng.choice(TEXTS))
        return list(found.values())

    def string(self, row):
        return self.rng.choice(STRINGS) if not self.rng.randrange(4) else super().string(row)

    def bool(self, row):
        return self.operator(2) if not self.rng.randrange(60) else super().bool(row)

    def operator(self, depth):
        """An operator with parts that mostly fit."""
        rng = self.rng
        vector = lambda: rng.choice([b"#b1", b"#b0", b"#x80", b"#x7f", b"#xff", [b"_", b"bv128", b"8"]])
        truth = lambda: self.operator(depth - 1) if depth and not rng.randrange(3) else rng.choice([b"true", b"false"])
        if not rng.randrange(12):
            return rng.choice([
                *many("(V4 #x7f000001 none) (V6 true true) (not) (not zork)"), [b"or", truth()], [b"ite", truth(), truth()],
                [b"or", vector(), vector()], [b"=", truth(), vector()], [b"bvnego", truth()], [b"ite", vector(), truth(), truth()]])
        one = vector()
        return rng.choice([
            [b"not", truth()], [b"or", truth(), truth()], [b"=", truth(), truth()], [b"=", vector(), vector()], [b"ite", truth(), truth(), truth()],
            [b"bvnego", vector()], [b"bvsaddo", one, one], [b"bvsmulo", one, one], [b"bvsaddo", vector(), vector()]])

    def option(self, row, inner):
        """A bare `none`, which ends every comparison of what follows, is left to one in forty."""
        found = super().option(row, inner)
        return [b"as", b"none", self.sort(row)] if found == b"none" and self.rng.randrange(3) else found

    def set(self, row, inner):
        rng = self.rng
        if rng.randrange(6):
            return super().set(row, inner)
        # Members from a small stock, so that they repeat, grouped in any way.
        stock = [self.value(inner) for _ in range(3)]
        parts = [[b"set.singleton", again(rng, rng.choice(stock))] for _ in range(1 + few(rng, MOST_MEMBERS))]
        while len(parts) > 1:
            at = rng.randrange(len(parts) - 1)
            parts[at:at + 2] = [[b"set.union", *parts[at:at + 2]]]
        return parts[0]

    def body(self, arg, out):
        rng = self.rng
        stock = [self.value(arg) for _ in range(rng.randrange(1, 4))]
        keys = [again(rng, rng.choice(stock)) if rng.randrange(3) else self.value(arg) for _ in range(few(rng, MOST_ARMS))]
        tests = [rng.choice([[b"=", self.arg, key], [b"=", key, self.arg]]) for key in keys]
        pick = rng.randrange(40)
        if pick == 0:
            return [b"=", *rng.choice([[], [self.arg], [self.arg, stock[0], stock[0]], [stock[0]] * 2, [self.arg] * 2, [self.arg, stock[0]]])]
        if self.rows[out] == ("bool",) and pick < 18 or pick == 39:
            return [b"or", *tests]
        body = self.value(out)
        for test in tests:
            body = [b"ite", test, self.value(out), body]
        return body

    def model(self):
        rng = self.rng
        out = [[b"define-fun", name.encode(), [], self.sort(row), self.value(row)] for name, row in self.vars]
        out += [[b"define-fun", name.encode(), [[self.arg, self.sort(arg)]], self.sort(res), self.body(arg, res)] for name, arg, res in self.funs]
        for _ in range(few(rng, 6)):
            out.append(self.other(rng.choice(out)))
        rng.shuffle(out)
        return out if rng.randrange(8) else out[1:]

    def other(self, command):
        """A definition given again, with another value, under another name, or of the other form."""
        rng = self.rng
        pick = rng.randrange(6)
        name = command[1]
        if pick == 0:
            return command
        if pick == 1:
            names = [b"|" + name + b"|", name + b"|", name[:-1] or b"|", name + b"0", name.strip(b"|") or b"h"]
            return [command[0], rng.choice(names), *command[2:]]
        if pick == 2:
            args = rng.choice([[], [[b"y", b"Zork"]]])
            value = rng.choice([[b"let", []], b"#b10", self.operator(1), *WIDE])
            return [b"define-fun", rng.choice([b"h", b"|h|", b"Zork", name]), args, b"Zork", value]
        if command[2]:
            signs = [(arg, out) for fun, arg, out in self.funs if fun.encode() == name] or [(0, 0)]
            return [b"define-fun", name, *command[2:4], self.body(*signs[0])]
        rows = [row for var, row in self.vars if var.encode() == name and rng.randrange(8)] or [rng.randrange(len(self.rows))]
        return [b"define-fun", name, [], self.sort(rows[0]), self.value(rows[0])]

    def fault(self):
        """A value that one rule refuses, so that rare numbers are met too."""
        rng = self.rng
        row = rng.randrange(len(self.rows))
        sort, value = self.sort(row), self.value(row)
        records = [sort[1:] for sort in self.rows if sort[0] == "record"]
        if records and rng.randrange(3):
            name, *fields = rng.choice(records)
            parts = [self.value(field) for field in fields]
            if parts and rng.randrange(2):
                parts[rng.randrange(len(parts))] = value
            else:
                parts.insert(rng.randrange(len(parts) + 1), value)
            return [name.encode(), *parts]
        return rng.choice([
            [b"as", b"none", sort], [b"as", b"set.empty", sort], [[b"as", b"some", sort], value], [b"set.union", value, value],
            [b"set.union", value, [b"set.singleton", value]], [b"some", value], [b"set.singleton", value],
            *many("(_ bv300 8) (_ bv1 0) (_ bv1 4294967296) (_ bvx 8)")])


def again(rng, value):
    """An equal value in another notation, as far as it is easily found."""
    if isinstance(value, bytes):
        if value[:2] not in (b"#b", b"#x") or not rng.randrange(2):
            return value
        width = (len(value) - 2) * (4 if value[:2] == b"#x" else 1)
        number = int(value[2:], 16 if value[:2] == b"#x" else 2)
        forms = [b"#b" + f"{number:0{width}b}".encode(), [b"_", b"bv%d" % number, b"%d" % width], [b"_", b"bv+%d" % number, b"%d" % width]]
        return rng.choice(forms + ([b"#x" + f"{number:0{width // 4}X}".encode()] if width % 4 == 0 else []))
    if value[:1] in ([b"Decimal"], [b"Datetime"], [b"Duration"], [b"_"], [b"as"]):
        return value
    if value[:1] == [b"set.union"] and len(value) == 3:
        one, other = again(rng, value[1]), again(rng, value[2])
        return rng.choice([[b"set.union", one, other], [b"set.union", other, one], [b"set.union", one, [b"set.union", other, one]]])
    return [value[0], *(again(rng, part) for part in value[1:])]


def rowless(rng, depth=2):
    """A value of a sort that may have no row, and that sort."""
    kind = rng.randrange(8 if depth else 5)
    if kind < 2:
        return rng.choice(WIDE), rng.choice(SORTS)
    if kind < 5:
        return rng.choice([
            (b"true", b"Bool"), (b'""', b"String"), (b"#b1", [b"_", b"BitVec", b"1"]), ([b"Decimal", b"#x%016x" % rng.randrange(2 ** 64)], b"Decimal"),
            ([b"Datetime", b"#x" + b"0" * 16], b"Datetime"), ([b"Duration", b"#b" + b"1" * 64], b"Duration"), ([b"Decimal", rng.choice(WIDE)], b"Decimal")])
    value, sort = rowless(rng, depth - 1)
    if kind == 5:
        whole = [b"Option", sort]
        return rng.choice([[b"some", value], [[b"as", b"some", whole], value], [b"as", b"none", whole]]), whole
    if kind == 6:
        whole = [b"Set", sort]
        one, none = [b"set.singleton", value], [b"as", b"set.empty", whole]
        return rng.choice([one, none, [b"set.union", one, none]]), whole
    return rng.choice([[b"as", b"none", sort], [b"as", b"set.empty", sort], [[b"as", b"some", sort], value]]), sort


def struck(rng, tables, model):
    """One fault: those of cases/models.py, an operator, a sort without a row, a wide vector, an odd name."""
    pick = rng.randrange(12)
    places = list(last_part(rng.choice(model)) if rng.randrange(4) else nodes(model))
    if pick < 5 or not places:
        damage(rng, tables, model)
        return
    # Often the whole value, where its sort is known to be met.
    place, at = rng.choice(places) if rng.randrange(3) else places[0]
    value, sort = rowless(rng)
    place[at] = (value, sort, tables.operator(2), stray(rng, tables, model), *(tables.fault() for _ in range(3)))[pick - 5]


def spaced(rng, tree):
    """A model written with other white space, with comments, and without what is not needed."""
    if isinstance(tree, bytes):
        return tree
    out = b"("
    for node in tree:
        part = spaced(rng, node)
        glued = out[-1:] in b"()" or part[:1] == b"("
        out += (b"" if glued and rng.randrange(2) else rng.choice(SEPARATORS)) + part
    return out + rng.choice([b"", b"", b"\n", b" "]) + b")"


def deep(rng):
    """A value, a key, a default or a sort nested about as deep as is read."""
    level = DEEPEST + rng.randrange(-3, 4)
    forms = rng.sample(DEEP_FORMS, rng.randrange(1, 4))
    chosen = [rng.choice(forms) for _ in range(level)]
    value = b"".join(opening for opening, _ in chosen) + rng.choice(DEEP_CORES) + b"".join(closing for _, closing in reversed(chosen))
    sort = rng.choice([b"(Option", b"(Set"]) * level + b" Bool" + b")" * level
    return DEEP_TABLES, rng.choice(DEEP_VALUES) % value if rng.randrange(3) else rng.choice(DEEP_SORTS) % sort


def grouped(rng, parts):
    """Sets in one, each level of unions about half as long as the one below it."""
    while len(parts) > 1:
        pairs = [parts[at:at + 2] for at in range(0, len(parts), 2)]
        parts = [[b"set.union", *(pair if rng.randrange(2) else pair[::-1])] if len(pair) == 2 else pair[0] for pair in pairs]
    return parts[0]


def large(rng, size):
    """Long runs to be put in order: so many members or arms that repeat and begin alike; in any order, in order, and against it."""
    begins = [b"", b"a" * rng.randrange(40), b"ab", b"\\u{e9}"]
    stock = [rng.choice(begins) + (b"%x" % rng.randrange(2 ** rng.choice([4, 16, 64]))) for _ in range(1 + size * rng.randrange(1, 5) // 4)]
    words = [b'"%s"' % rng.choice(stock) for _ in range(size)]
    pick = rng.randrange(4)
    words = words if pick < 2 else sorted(words, reverse=pick == 3)
    members = lambda some: grouped(rng, [[b"set.singleton", word] for word in some])
    some = lambda: members(rng.sample(words, min(size, rng.randrange(1, 6))))
    sort, sets = [b"Set", b"String"], [b"Set", [b"Set", b"String"]]
    pick = rng.randrange(5)
    if pick == 0:
        return LARGE_TABLES, models.written([[b"define-fun", b"x", [], sort, members(words)]])
    if pick == 1:
        return LARGE_TABLES, models.written([[b"define-fun", b"y", [], sets, grouped(rng, [[b"set.singleton", some()] for _ in words])]])
    if pick == 2:
        return LARGE_TABLES, models.written([[b"define-fun", b"g", [[b"a", b"String"]], b"Bool", [b"or", *([b"=", b"a", word] for word in words)]]])
    body = b'"else"' if pick == 3 else [b"R", b'"else"', some()]
    for word in words:
        key, value = (word, rng.choice(words)) if pick == 3 else (some(), [b"R", word, some()])
        body = [b"ite", [b"=", b"a", key], value, body]
    head = [b"f", [[b"a", b"String"]], b"String"] if pick == 3 else [b"h", [[b"a", sort]], b"R"]
    return LARGE_TABLES, models.written([[b"define-fun", *head, body]])


def unlawful(rng, text):
    """Tables that most often break a rule."""
    lines = text.split(b"\n")[:-1]
    at = rng.randrange(len(lines))
    pick = rng.randrange(8)
    if pick == 0:
        lines.insert(at, lines[at])
    elif pick == 1:
        lines.append(lines[0])
    elif pick == 2:
        lines[at] += rng.choice([b" ", b" 0", b" 99", b"(", b"\xff"])
    elif pick == 3:
        words = lines[at].split(b" ")
        words[-1] = rng.choice([b"99", b"00", b"1024", b"", b"-1", b"0", b"18446744073709551616"])
        lines[at] = b" ".join(words)
    elif pick == 4:
        lines.insert(0, rng.choice([b"sort=bitvec 0", b"sort=bitvec 129", b"sort=bitvec 128", b"sort=option 0", b"sort=entity or",
                                    b"sort=record 1a", b"sort=Bool", b"sort=entity a b", b"", b"sort"]))
    elif pick == 5:
        lines.append(rng.choice([b"enum=true 0 x", b"enum=zz 0 x", b"enum=zz 0", b"var=zz 0", b"fun=zz 0 0", b"enum=z( 0 x"]))
    elif pick == 6:
        return text[:-1]
    else:
        del lines[at]
    return b"\n".join(lines) + b"\n"


def broken(rng, text):
    """A byte of a reply changed, taken out or put in, or the rest cut off."""
    at = rng.randrange(len(text))
    byte = rng.choice([b"(", b")", b'"', b";", b"#", b"|", b" ", b"\x80", b"\xff", b"0", b"\\", b'"\\ud800"', b"#x"])
    return rng.choice([text[:at], text[:at] + text[at + 1:], text[:at] + byte + text[at:], text[:at] + byte + text[at + 1:], b")" + text])


def random_case(rng):
    """Tables, a model in bytes, and its nodes, or None where it was not made of nodes."""
    pick = rng.randrange(200)
    if pick < 2:
        return *deep(rng), None
    if pick == 2:
        return *large(rng, rng.randrange(1, 400)), None
    return model_of(rng, Tables(rng))


def model_of(rng, tables):
    """A model over tables, as above."""
    model = copied(tables.model())
    for _ in range(rng.choice([0, 0, 0, 1, 1, 2, 3])):
        if model:
            struck(rng, tables, model)
            model = copied(model)
    text = tables.text() if rng.randrange(80) else unlawful(rng, tables.text())
    told = models.written(model) if rng.randrange(4) else spaced(rng, model)
    return (text, told, model) if rng.randrange(40) else (text, broken(rng, told), None)
