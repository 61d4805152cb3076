"""Models at the edge of document 01's nesting: a value or sort at level 1,023 is read, one at level 1,024 is 24.

To be listed, a nested value needs rows for the sorts on its way, so that few such models fit. The others nest a key, which expects no
sort, over a record `R` of one bool: `(R (R true))` is read to its end before its 17, so that 24 or another number shows the level.
"""

DEEPEST = 1023
SHORT = 12
# In short as in cases/listings.py; neither row for an option nor for a set of them is there.
TABLES = "bool; record R 0; decimal; bitvec 8; entity E; fun f 0 0; enum m 4 x"
FORMS = {
    "some": ("(some", ")"),
    "typed some": ("((as some Bool)", ")"),
    "singleton": ("(set.singleton", ")"),
    "union, from the left": ("(set.union", "m)"),
    "union, from the right": ("(set.union m", ")"),
    "record": ("(R", ")"),
}
# The sort in `as` is one level below; what an arm merely matches costs none.
BELOW = ["((as some Bool) true)", "(as none Bool)"]
MATCHED = ["(Decimal #x0000000000000000)", "(_ bv1 8)"]


def nested(opening, core, closing, count):
    return opening * count + core + closing * count


def key(value):
    return TABLES, f"((define-fun f ((a Bool)) Bool (or (= a {value}))))"


def records(core, level):
    """A core at some level, with a space before it, for it may be an atom."""
    return nested("(R", " " + core, ")", level)


def through(form, level):
    """A few of a form over records, the core at some level; no spaces but where atoms meet."""
    opening, closing = form
    inner = records("true", level - SHORT)
    return key(nested(opening, inner, closing, SHORT))


def refused():
    """Each form at level 1,024, and those that are short to write at the two before it."""
    found = [through(form, DEEPEST + 1) for form in FORMS.values()]
    found += [through(FORMS["some"], DEEPEST - 1), through(FORMS["some"], DEEPEST), through(FORMS["record"], DEEPEST)]
    found += [key(records(core, level)) for core in BELOW for level in (DEEPEST - 1, DEEPEST)]
    found += [key(records(core, DEEPEST)) for core in MATCHED] + [key(records("zork", DEEPEST + 1))]
    # Sorts in sorts: as an argument's, and in a value's `as`, which is one level below the value.
    found += [(TABLES, f"((define-fun f ((a {nested('(Option', ' Bool', ')', DEEPEST + 1)})) Bool true))")]
    found += [key(f"(as set.empty {nested('(Set', ' Bool', ')', level - 1)})") for level in (DEEPEST, DEEPEST + 1)]
    # An operator's operands are not read, however deep they are.
    return found + [key(f"(not {records('true', DEEPEST + SHORT)})")]


def options(count):
    """A variable whose sort and value are both nested, with a row for each."""
    rows = "; ".join(["bool", *(f"option {row}" for row in range(count)), f"var x {count}"])
    sort, value = nested("(Option", " Bool", ")", count), nested("(some", " true", ")", count)
    return rows, f"((define-fun x () {sort} {value}))"


def names():
    """Short names of records."""
    letters = "abcdefghijklmnopqrstuvwxyzABCDEFGHIJKLMNOPQRSTUVWXYZ"
    yield from (one + other for one in letters for other in letters if one + other not in ("as", "or"))


def mixed(level):
    """Every form in one value that is listed: unions around an entity, typed options, then options, singletons and records by turns."""
    rows, value, count = ["entity E", "set 0"], '(set.singleton(E "y"))', 1
    for turn in range(SHORT):
        value = f"(set.union{value}(set.singleton m))" if turn % 2 else f"(set.union(set.singleton m){value})"
        count += 1
    sort = "(Set E)"
    for _ in range(3):
        rows.append(f"option {len(rows) - 1}")
        sort = f"(Option{sort})"
        value, count = f"((as some{sort}){value})", count + 1
    known = names()
    while count < level:
        turn = 3 if count == level - 1 else count % 4
        name = next(known) if turn > 1 else ""
        rows.append((f"option {len(rows) - 1}", f"set {len(rows) - 1}", *[f"record {name} {len(rows) - 1}"] * 2)[turn])
        value, count = (f"(some{value})", f"(set.singleton{value})", *[f"({name}{value})"] * 2)[turn], count + 1
    return "; ".join([*rows, f"var x {len(rows) - 1}", "enum m 0 y"]), f"((define-fun x () {name} {value}))"


def arms(count):
    """Arms spend no nesting."""
    return "entity E; fun f 0 0; enum m 0 y", f"((define-fun f ((a E)) E {nested('(ite(= a m)m', ' m', ')', count)}))"


def listed():
    """Models that are listed, at level 1,023."""
    return [mixed(DEEPEST), options(DEEPEST), arms(DEEPEST + SHORT)]
