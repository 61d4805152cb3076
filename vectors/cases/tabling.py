"""Document 01's tables read a second time, in Python, from its words alone: "Sorts and literals", and the text form in "The listing".

The words of a row are those of crates/tables/specs/Layout.antt: its name's place and length first.
"""

import re

import reading

LONGEST_TEXT = 65_536
MOST_ROWS, LONGEST_NAME, MOST_FIELDS, WIDEST = 1024, 65_536, 256, 128
STRIDE = 5
PLAIN = ("bool", "string", "decimal", "datetime", "duration")
# Kinds by their numbers, 1 to 10.
KINDS = (*PLAIN, "bitvec", "option", "set", "entity", "record")
KEPT = frozenset(
    b"true false not or = ite bvnego bvsaddo bvsmulo as some none set.empty set.singleton set.union "
    b"Decimal Datetime Duration V4 V6 _ Bool String BitVec Option Set".split())
ORDER = (b"sort", b"var", b"fun", b"enum")


class Bad(Exception):
    """A rule is broken, or a line is of no form: 25."""


def need(fact):
    if not fact:
        raise Bad


class Tables:
    """Rows in four tables. A sort is its kind, its name or None, its number, and its fields."""

    def __init__(self):
        self.sorts, self.variables, self.functions, self.members = [], [], [], []


def number(digits):
    need(re.fullmatch(rb"0|[1-9][0-9]*", digits))
    return int(digits)


def sort_row(rest):
    word, *parts = rest.split(b" ")
    kind = word.decode("latin-1")
    if kind in PLAIN:
        need(not parts)
        return kind, None, 0, ()
    if kind in ("bitvec", "option", "set"):
        need(len(parts) == 1)
        return kind, None, number(parts[0]), ()
    if kind == "entity":
        need(len(parts) == 1)
        return kind, parts[0], 0, ()
    need(kind == "record" and parts)
    return kind, parts[0], 0, tuple(map(number, parts[1:]))


def numbered_row(rest, count):
    name, *numbers = rest.split(b" ")
    need(len(numbers) == count)
    return name, *map(number, numbers)


def member_row(rest):
    parts = rest.split(b" ", 2)
    need(len(parts) == 3)
    return parts[0], number(parts[1]), parts[2]


def parsed(text):
    """The rows that the lines spell."""
    tables, last = Tables(), 0
    need(text[-1:] in (b"", b"\n"))
    for line in text.split(b"\n")[:-1]:
        key, equals, rest = line.partition(b"=")
        need(equals and key in ORDER and ORDER.index(key) >= last)
        last = ORDER.index(key)
        if key == b"sort":
            tables.sorts.append(sort_row(rest))
        elif key == b"var":
            tables.variables.append(numbered_row(rest, 1))
        elif key == b"fun":
            tables.functions.append(numbered_row(rest, 2))
        else:
            tables.members.append(member_row(rest))
    return tables


def check_name(name, own):
    """A name is what the lexer gives as one symbol; a sort's or an enum member's own name is no kept word."""
    need(0 < len(name) <= LONGEST_NAME and name[0] not in reading.ENDS_SYMBOL)
    try:
        need(reading.token(name, 0) == ((4, name), len(name)))
    except reading.Refused:
        raise Bad from None
    need(not (own and name in KEPT))


def check_sort(row, place):
    kind, name, size, fields = row
    if kind == "bitvec":
        need(1 <= size <= WIDEST)
    if kind in ("option", "set"):
        need(size < place)
    if name is not None:
        check_name(name, True)
    need(len(fields) <= MOST_FIELDS and all(field < place for field in fields))


def identity(row):
    kind, name, size, _ = row
    return ("named", name) if name is not None else (kind, size)


def distinct(things):
    things = list(things)
    need(len(set(things)) == len(things))


def check(tables):
    """Raises Bad exactly when a rule is broken."""
    sorts = tables.sorts
    for rows in (sorts, tables.variables, tables.functions, tables.members):
        need(len(rows) <= MOST_ROWS)
    for place, row in enumerate(sorts):
        check_sort(row, place)
    distinct(map(identity, sorts))
    for rows in (tables.variables, tables.functions):
        for name, *places in rows:
            check_name(name, False)
            need(all(place < len(sorts) for place in places))
    for name, place, text in tables.members:
        check_name(name, True)
        need(place < len(sorts) and sorts[place][0] == "entity" and len(text) <= LONGEST_NAME)
        try:
            text.decode("utf-8")
        except UnicodeDecodeError:
            raise Bad from None
    for rows in (tables.variables, tables.functions, tables.members):
        distinct(row[0] for row in rows)


def laid(text, tables):
    """The words of the five lists: names and texts are places in the text itself, found line by line."""
    sorts, fields, variables, functions, members = [], [], [], [], []
    at = 0
    lines = iter(text.split(b"\n"))
    for kind, name, size, own in tables.sorts:
        where = (at + 12, len(name)) if name is not None else (0, 0)
        more = (len(fields), len(own)) if kind == "record" else (size, 0)
        sorts += [*where, KINDS.index(kind) + 1, *more]
        fields += own
        at += len(next(lines)) + 1
    for rows, words in ((tables.variables, variables), (tables.functions, functions)):
        for name, *places in rows:
            words += [at + 4, len(name), *places, *[0] * (3 - len(places))]
            at += len(next(lines)) + 1
    for name, place, told in tables.members:
        line = next(lines)
        members += [at + 5, len(name), place, at + len(line) - len(told), len(told)]
        at += len(line) + 1
    return sorts, fields, variables, functions, members


def part(entries, first, size):
    need(first + size <= len(entries))
    return entries[first:first + size]


def rows_of(words):
    need(len(words) % STRIDE == 0)
    return [words[at:at + STRIDE] for at in range(0, len(words), STRIDE)]


def raw_sort(row, fields, names):
    first, size, kind, third, fourth = row
    need(1 <= kind <= len(KINDS))
    word = KINDS[kind - 1]
    name = part(names, first, size) if word in ("entity", "record") else None
    own = tuple(part(fields, third, fourth)) if word == "record" else ()
    return word, name, third if word in ("bitvec", "option", "set") else 0, own


def raw(sorts, fields, variables, functions, members, names):
    """The rows that words stand for; Bad where they are of no form."""
    tables = Tables()
    tables.sorts = [raw_sort(row, fields, names) for row in rows_of(sorts)]
    tables.variables = [(part(names, row[0], row[1]), row[2]) for row in rows_of(variables)]
    tables.functions = [(part(names, row[0], row[1]), row[2], row[3]) for row in rows_of(functions)]
    tables.members = [(part(names, row[0], row[1]), row[2], part(names, row[3], row[4])) for row in rows_of(members)]
    return tables


def checked(words, names):
    """What the check says of words and name bytes."""
    try:
        check(raw(*words, names))
    except Bad:
        return "refused=25"
    return "passed"


def shown(words, row):
    """The words of a row are parted by commas, rows by semicolons; fields, which are no rows, by commas."""
    size = STRIDE if row else max(len(words), 1)
    groups = [words[at:at + size] for at in range(0, len(words), size)]
    return ";".join(",".join(f"{word:x}" for word in group) for group in groups)


def read(text, rooms=None):
    """What reading a text answers, in rooms of so many words or in plenty."""
    if len(text) > LONGEST_TEXT:
        return "refused=9"
    try:
        tables = parsed(text)
        check(tables)
    except Bad:
        return "refused=25"
    words = laid(text, tables)
    for some, room in zip(words, rooms or ()):
        if len(some) > room:
            return f"refused=26 detail={len(some)}"
    names = ("sorts", "fields", "variables", "functions", "members")
    return " ".join([f"{name}={shown(some, name != 'fields')}" for name, some in zip(names, words)] + ["passed"])


def found(text, kind, key):
    """The first row of a lawful text's tables that has a name, or a kind and number of sort."""
    tables = parsed(text)
    if kind == "s":
        wanted = [(KINDS[key[0] - 1], key[1] if key[0] > len(PLAIN) else 0)]
        keys = [identity(row) for row in tables.sorts]
    else:
        wanted = [key]
        rows = {"v": tables.variables, "f": tables.functions, "m": tables.members}
        keys = [row[1] for row in tables.sorts] if kind == "n" else [row[0] for row in rows[kind]]
    return f"row={keys.index(wanted[0])}" if wanted[0] in keys else "none"
