"""Document 01's model walk and listing, and document 02's R-1, read a second time, in Python, from their words alone; with `worked`
document 02's R-2 too, which works out operators.

Beside document 01's rules it knows, one by one, the crate's ways that docs/DIFFERENCES.md lists: with all of
them taken up its answers have to be the crate's, with none of them they are document 01's. A walk notes which of them it meets.
"""

from typing import NamedTuple, Optional

from factory import FACTORY, Panicked, is_literal
from operators import MEANINGS, OPERATORS, Beyond, fitting
from reading import Arena, Refused, answered
from value import BOOL, Value, in_order, plain, shown, some, truth

DEEPEST = 1023
STRING, ADDRESS = ("string",), ("ipaddr",)
PLAIN = {b"Bool": BOOL, b"String": STRING, b"Decimal": ("decimal",), b"Datetime": ("datetime",), b"Duration": ("duration",)}
SIGNED = {b"Decimal": "d", b"Datetime": "t", b"Duration": "u"}
CRATE = frozenset(["D1", "D2", "D3", "D4", "D5", "D6", "D7", "D8", "D9", "S1", "S2", "S3"])


class Tables:
    """The rows of tables.txt; a sort is its structure, entities and records by name."""

    def __init__(self, text, ways):
        self.sorts, self.named, self.vars, self.funs, self.enums, self.fields = [], {}, {}, {}, {}, {}
        for line in text.decode().split("\n")[:-1]:
            kind, rest = line.split("=", 1)
            getattr(self, "add_" + kind)(rest, ways)

    def add_sort(self, rest, ways):
        kind, *parts = rest.split(" ")
        row = len(self.sorts)
        if kind == "bitvec":
            sort = (kind, int(parts[0]))
        elif kind in ("option", "set"):
            sort = (kind, self.sorts[int(parts[0])])
        elif kind == "entity":
            sort = (kind, row)
        elif kind == "record":
            # The crate knows a record by its fields, so that those without any are one.
            empty = [other for other in self.fields if not self.fields[other]]
            sort = empty[0] if empty and len(parts) == 1 and "D8" in ways else (kind, row)
            self.fields[sort] = [self.sorts[int(field)] for field in parts[1:]]
        else:
            sort = (kind,)
        if kind in ("entity", "record"):
            self.named[parts[0].encode()] = sort
        self.sorts.append(sort)

    def add_var(self, rest, _ways):
        name, row = rest.split(" ")
        self.vars[name.encode()] = int(row)

    def add_fun(self, rest, _ways):
        name, arg, out = rest.split(" ")
        self.funs[name.encode()] = (int(arg), int(out))

    def add_enum(self, rest, _ways):
        name, row, text = rest.split(" ", 2)
        sort = self.sorts[int(row)]
        self.enums[name.encode()] = plain(sort, f"e{sort[1]}:{text.encode().hex()}")

    def written(self, sort):
        """A sort as a model writes it, in lists of tokens."""
        kind, *parts = sort
        if kind == "bitvec":
            return [b"_", b"BitVec", b"%d" % parts[0]]
        if kind in ("option", "set"):
            return [kind.capitalize().encode(), self.written(parts[0])]
        return next(name for name, known in {**PLAIN, **self.named}.items() if known == sort)


def tree(arena):
    """The reader's tree: an application is a list, an atom a tuple."""
    root = []
    open_lists = [(root, len(arena.nodes))]
    for at, (kind, first, second, third) in enumerate(arena.nodes):
        while at >= open_lists[-1][1]:
            open_lists.pop()
        if kind == 5:
            node = []
        elif kind in (3, 4):
            node = (kind, bytes(arena.text[second:second + first]))
        else:
            node = (kind, second + third * 2 ** 64, first)
        open_lists[-1][0].append(node)
        if kind == 5:
            open_lists.append((node, second))
    return root[0]


def is_symbol(node, name=None):
    return isinstance(node, tuple) and node[0] == 4 and (name is None or node[1] == name)


def is_app(node, name, count=None):
    return isinstance(node, list) and node[:1] == [(4, name)] and (count is None or len(node) == count)


def braces(sort, members):
    """A set of members as they are written, each its text and the one that keeps repeats."""
    texts = sorted({text for text, _ in members}, key=in_order)
    return Value(sort, "{" + ",".join(texts) + "}", "{" + ",".join(kept for _, kept in members) + "}", members)


class Walk:
    """One walk over a model; `worked` says whether operators are worked out."""

    def __init__(self, tables, ways, worked=False):
        self.ways, self.worked = ways, worked
        self.tables = Tables(tables, ways)
        self.known = set(self.tables.sorts)
        self.vars, self.funs = {}, {}
        self.parted, self.done = set(), 0

    def takes(self, way):
        """Asked where document 01 and the crate part, and nowhere else: notes which difference it is; whether the crate's way is taken."""
        self.parted.add(way)
        return way in self.ways

    def met(self, sort):
        """A sort met or formed needs a row."""
        if sort not in self.known and not self.takes("S2"):
            raise Refused(23)
        return sort

    def enter(self, level):
        if level > DEEPEST and not self.takes("S3"):
            raise Refused(24)

    def sort(self, node, level=0):
        self.enter(level)
        if is_symbol(node):
            name = node[1]
            if name == b"IPAddr" and self.takes("D3"):
                return ADDRESS
            if name in PLAIN:
                return self.met(PLAIN[name])
            if name in self.tables.named:
                return self.tables.named[name]
        elif is_app(node, b"_", 3) and is_symbol(node[1], b"BitVec") and node[2][:1] == (2,):
            return self.met(("bitvec", self.width(node[2][1])))
        elif is_app(node, b"Option", 2) or is_app(node, b"Set", 2):
            kind = "option" if is_app(node, b"Option") else "set"
            return self.met((kind, self.sort(node[1], level + 1)))
        raise Refused(14)

    @staticmethod
    def width(number):
        if number > 2 ** 32 - 1:
            raise Refused(7)
        if number == 0:
            raise Refused(8)
        return number

    def value(self, node, expected=None, level=0):
        self.enter(level)
        if isinstance(node, list):
            return self.application(node, expected, level)
        if node[0] == 1:
            return self.vector(node[2], node[1] - 2 ** 128 if node[1] >= 2 ** 127 and node[2] > 128 else node[1])
        if node[0] == 3:
            return plain(self.met(STRING), "s:" + node[1].hex())
        if node[0] == 4:
            return self.atom(node[1], expected)
        raise Refused(15)

    def vector(self, width, number):
        digits = (width + 3) // 4
        return plain(self.met(("bitvec", width)), f"bv{width}:{number % 2 ** width:0{digits}x}")

    def atom(self, name, expected):
        if name in (b"true", b"false"):
            return plain(self.met(BOOL), name.decode())
        if name == b"none" and expected and expected[0] == "option" and self.takes("D1"):
            return plain(expected, "none")
        if name in self.tables.named and self.takes("D2"):
            return self.named(name, [], 0)
        if name in self.tables.enums:
            return self.tables.enums[name]
        raise Refused(15)

    def application(self, node, expected, level):
        """The arms of `decode_literal_app`, in order."""
        head = node[0][1] if node and is_symbol(node[0]) else None
        if (head, len(node)) in OPERATORS:
            return self.worked_out(node, expected, level)
        if head == b"as" and len(node) == 3 and is_symbol(node[1], b"none"):
            return self.empty("option", node[2], level)
        if head is None and len(node) == 2 and is_app(node[0], b"as", 3) and is_symbol(node[0][1], b"some"):
            return self.typed_some(node, level)
        if head == b"some" and len(node) == 2:
            return self.some(node[1], self.inside("option", expected), level)
        if head == b"as" and len(node) == 3 and is_symbol(node[1], b"set.empty"):
            return self.empty("set", node[2], level)
        if head == b"set.singleton" and len(node) == 2:
            member = self.value(node[1], self.inside("set", expected), level + 1)
            return braces(self.met(("set", member.sort)), ((member.text, member.kept),))
        if head == b"set.union" and len(node) == 3:
            return self.union(node, expected, level)
        if head in SIGNED and len(node) == 2 and node[1][:1] == (1,) and node[1][2] == 64:
            number = node[1][1] % 2 ** 64
            number -= 2 ** 64 if number >= 2 ** 63 else 0
            return plain(self.met(PLAIN[head]), f"{SIGNED[head]}:{number}")
        if head == b"_" and len(node) == 3 and is_symbol(node[1]) and node[1][1][:2] == b"bv" and node[2][:1] == (2,):
            return self.indexed(node[1][1][2:], node[2][1])
        if head is not None:
            return self.named(head, node[1:], level)
        raise Refused(15)

    def worked_out(self, node, expected, level):
        """An operator; the branches of `ite` alone are handed an expectation."""
        name = node[0][1]
        covered = self.worked and name in MEANINGS
        if not covered and not self.takes("S1"):
            raise Refused(22)
        if name not in MEANINGS:
            raise Beyond
        inner = expected if name == b"ite" else None
        parts = [self.value(part, inner if place else None, level + 1) for place, part in enumerate(node[1:])]
        found = self.meaning(name, parts) if covered else OPERATORS[name, len(node)](*parts)
        return found if isinstance(found, Value) else truth(found)

    def meaning(self, name, parts):
        """What R-2 makes of operands that were all read; a truth value is formed behind their sorts."""
        if fitting(name, [part.sort for part in parts]) and all(map(is_literal, parts)):
            found = MEANINGS[name](*parts)
        elif self.takes("D9"):
            found = FACTORY[name](*parts)
        else:
            raise Refused(16)
        self.met(found.sort if isinstance(found, Value) else BOOL)
        return found

    @staticmethod
    def inside(kind, expected):
        """What an option or a set expects inside it; another expectation refuses the arm."""
        if expected is None:
            return None
        if expected[0] != kind:
            raise Refused(15)
        return expected[1]

    def empty(self, kind, node, level):
        sort = self.sort(node, level + 1)
        if sort[0] != kind:
            raise Refused(19 if kind == "option" else 20)
        return plain(sort, "none") if kind == "option" else braces(sort, ())

    def some(self, node, inner, level):
        value = some(self.value(node, inner, level + 1))
        self.met(value.sort)
        return value

    def typed_some(self, node, level):
        sort = self.sort(node[0][2], level + 1)
        value = self.some(node[1], sort[1] if sort[0] == "option" else None, level)
        if value.sort != sort:
            raise Refused(16)
        return value

    def union(self, node, expected, level):
        one, other = (self.value(part, expected, level + 1) for part in node[1:])
        if one.sort != other.sort:
            raise Refused(16)
        if one.members is None or other.members is None:
            raise Refused(28)
        return braces(one.sort, one.members + other.members)

    def indexed(self, digits, width):
        """`(_ bvN W)`; one leading `+` passes."""
        digits = digits[1:] if digits[:1] == b"+" else digits
        if not digits or any(digit not in b"0123456789" for digit in digits) or int(digits) >= 2 ** 128:
            raise Refused(4)
        width = self.width(width)
        if width < 128 and int(digits) >= 2 ** width:
            raise Refused(7)
        return self.vector(width, int(digits))

    def named(self, name, parts, level):
        sort = self.tables.named.get(name, ("",))
        if sort[0] == "entity" and len(parts) == 1 and parts[0][:1] == (3,):
            return plain(sort, f"e{sort[1]}:{parts[0][1].hex()}")
        if sort[0] != "record":
            raise Refused(15)
        fields = self.tables.fields[sort]
        if len(parts) != len(fields):
            raise Refused(18)
        values = []
        for part, field in zip(parts, fields):
            value = self.value(part, field, level + 1)
            if value.sort != field:
                raise Refused(17)
            values.append(value)
        return Value(sort, *(f"r{sort[1]}({','.join(value.told(kept) for value in values)})" for kept in (False, True)))

    def test(self, node, arg):
        """The key of a test; it expects no sort."""
        if is_app(node, b"=", 3):
            if is_symbol(node[1], arg):
                return self.value(node[2])
            if is_symbol(node[2], arg):
                return self.value(node[1])
        raise Refused(13 if self.takes("D5") else 21)

    def fits(self, value, sort):
        if value.sort != sort and not self.takes("D6"):
            raise Refused(16)

    def body(self, node, arg, sort, out):
        """The arms of a function's body as they are written, and the default."""
        true, false = truth(True), truth(False)
        if is_app(node, b"=") and self.takes("D4"):
            return [(self.test(node, arg), true)], false
        if is_app(node, b"or"):
            if out != BOOL and not self.takes("D7"):
                raise Refused(16)
            arms = []
            for part in node[1:]:
                key = self.test(part, arg)
                self.fits(key, sort)
                arms.append((key, true))
            return arms, false
        arms = []
        while is_app(node, b"ite", 4):
            key, value = self.test(node[1], arg), self.value(node[2], out)
            self.fits(key, sort)
            self.fits(value, out)
            arms.append((key, value))
            node = node[3]
        default = self.value(node, out)
        self.fits(default, out)
        return arms, default

    def variable(self, name, sort, value):
        if name not in self.tables.vars:
            return
        sort = self.sort(sort)
        value = self.value(value, sort)
        if value.sort != sort or self.tables.sorts[self.tables.vars[name]] != sort:
            raise Refused(16)
        self.vars[name] = value

    def function(self, name, arg, arg_sort, out_sort, body):
        if name not in self.tables.funs:
            return
        sorts = [self.sort(arg_sort), self.sort(out_sort)]
        if sorts != [self.tables.sorts[row] for row in self.tables.funs[name]]:
            raise Refused(16)
        self.funs[name] = self.body(body, arg, *sorts)

    def command(self, node):
        shaped = is_app(node, b"define-fun", 5) and is_symbol(node[1]) and isinstance(node[2], list)
        if shaped and not node[2]:
            self.variable(node[1][1], *node[3:])
        elif shaped and len(node[2]) == 1 and isinstance(node[2][0], list) and len(node[2][0]) == 2 and is_symbol(node[2][0][0]):
            self.function(node[1][1], node[2][0][0][1], node[2][0][1], *node[3:])
        else:
            raise Refused(13)

    def pair(self, node):
        """A pair of a reply to get-value: the value expects the table's sort, an unknown name is skipped unread."""
        if not isinstance(node, list) or len(node) != 2 or not is_symbol(node[0]):
            raise Refused(13)
        name = node[0][1]
        if name in self.tables.vars:
            sort = self.tables.sorts[self.tables.vars[name]]
            value = self.value(node[1], sort)
            if value.sort != sort:
                raise Refused(16)
            self.vars[name] = value

    def run(self, root, values=False):
        """All commands in order, or all pairs."""
        if not isinstance(root, list):
            raise Refused(13)
        for node in root:
            (self.pair if values else self.command)(node)
            self.done += 1

    @staticmethod
    def settled(arms):
        """The arms in the listing's order; a later one with an equal key replaces an earlier one."""
        last = {(key.sort, key.text): (key, value) for key, value in arms}
        return sorted(last.values(), key=lambda arm: (in_order(arm[0].text), in_order(arm[1].text)))

    def listing(self, kept=False):
        """The listing, or the text whose length is the need: with repeated members and arms kept."""
        lines = [f"vars={len(self.vars)}", f"funs={len(self.funs)}"]
        for name, row in self.tables.vars.items():
            if name in self.vars:
                lines += [f"var={name.decode()}", f"sort={row}", f"value={self.vars[name].told(kept)}"]
        for name, (arg, out) in self.tables.funs.items():
            if name in self.funs:
                arms, default = self.funs[name]
                lines += [f"fun={name.decode()}", f"arg={arg}", f"out={out}"]
                for key, value in arms if kept else self.settled(arms):
                    lines += [f"when={key.told(kept)}", f"then={value.told(kept)}"]
                lines.append(f"else={default.told(kept)}")
        return shown("\n".join(lines) + "\n")


def walked(tables, arena, ways=frozenset(), values=False, worked=False):
    """The walk over a model, or over a reply to get-value, that has been read."""
    walk = Walk(tables, ways, worked)
    walk.run(tree(arena), values)
    return walk


def listings(line, ways=frozenset(), worked=False):
    """The answer to a case of the oracle's `listings`, by document 01 and the crate's ways taken up."""
    tables, model = (bytes.fromhex(part) for part in line.split(" "))
    return answered(lambda: "listing=" + walked(tables, Arena(model), ways, worked=worked).listing().encode().hex())


class Answer(NamedTuple):
    """A walk's answer in the oracle's form, None where the crate is not followed; the listing's need; the differences met, and the command
    that the walk ended at."""

    told: Optional[str]
    need: Optional[int]
    met: frozenset
    ended: int


class Model:
    """Tables and a reply, a model or one to get-value, read once and walked with one set of ways after the other."""

    def __init__(self, tables, reply, values=False, worked=False):
        self.tables, self.values, self.worked, self.root, self.refusal = tables, values, worked, None, None
        try:
            self.root = tree(Arena(reply))
        except Refused as refusal:
            self.refusal = str(refusal)

    def answer(self, ways=frozenset()):
        if self.refusal:
            return Answer(self.refusal, None, frozenset(), 0)
        walk, need = Walk(self.tables, ways, self.worked), None
        try:
            walk.run(self.root, self.values)
            told, need = "listing=" + walk.listing().encode().hex(), len(walk.listing(True).encode())
        except (Refused, Panicked) as refusal:
            told = str(refusal)
        except Beyond:
            told = None
        return Answer(told, need, frozenset(walk.parted), walk.done)

    def followed(self, plain):
        """The crate's answer, and the differences that its walk meets; `plain` is the answer without any of its ways."""
        # D8 shows in no single place: it is met where the walk without it is another.
        twins = self.tables.count(b"sort=record ") > 1
        if not plain.met and not twins:
            return plain
        crate = self.answer(CRATE)
        if twins and self.answer(CRATE - {"D8"}) != crate:
            crate = crate._replace(met=crate.met | {"D8"})
        return crate


def explanation(case, found):
    """Why the crate's listing parts from document 01's: the differences that its walk meets, or None where they do not lead to its answer."""
    model = Model(*(bytes.fromhex(part) for part in case.split(" ")))
    crate = model.followed(model.answer())
    return " ".join(sorted(crate.met)) if crate.told in (found, None) else None
