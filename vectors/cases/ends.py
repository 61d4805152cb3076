"""Cases for the script lines whose lists come as document 01 says: a byte string and a table of ends, right or wrong.

A case is `E`, the form's number and its parts; a list is two of them, its string in hexadecimal and its ends, each in
hexadecimal with a dot behind it (crates/replay_lines/src/cases.rt). The answers are document 01's, by its second
reading, with no Rust at hand. That one of the lent inputs is too long (9) needs 16,777,217 bytes and has no case.
"""

from itertools import product

import reading

STRINGS = [b"", b"a", b"abcdef", b"x Bool", b"\n\xff"]
LARGE = [2 ** 32, 2 ** 63, 2 ** 64 - 1]
# The room that the program lends.
ROOM = 4096


def tables(string):
    """No end, ends that rise, stay, fall and pass the string, with bytes left behind the last one and with none, one to five of them."""
    size = len(string)
    edges = sorted({0, 1, size - 1, size, size + 1} - {-1})
    yield from ([], [0] * 5, [size] * 3, [size] * 4, list(range(size + 1)), list(range(size, -1, -1)))
    yield from ([end] for end in edges + LARGE)
    yield from map(list, product(edges, repeat=2))
    yield from ([0, end, size] for end in edges)
    yield from ([0, size, end, size] for end in edges + LARGE)


def right(string, ends, even):
    """No end falls or passes the string, and pairs have two ends each."""
    rising = all(start <= end <= len(string) for start, end in zip([0, *ends], ends))
    return rising and not (even and len(ends) % 2)


def parts(string, ends):
    return [string[start:end] for start, end in zip([0, *ends], ends)]


def dotted(ends):
    return "".join(f"{end:x}." for end in ends)


def answered(form, given):
    """25 where a table is wrong, else the line, or 26 with its length where that is too much; a list is given as a pair of string and ends."""
    lists = [part for part in given if isinstance(part, tuple)]
    if not all(right(string, ends, form == "5") for string, ends in lists):
        return "refused=25 detail=0"
    taken = [parts(*part) if isinstance(part, tuple) else part for part in given]
    line = reading.FORMS[form](*taken) + b"\n"
    return f"line={line.hex()}" if len(line) <= ROOM else f"refused=26 detail={len(line)}"


def case(form, given):
    fields = [f"{part[0].hex()} {dotted(part[1])}" if isinstance(part, tuple) else part.hex() for part in given]
    return " ".join(["E", form, *fields])


def answers(some):
    return [(case(form, given), answered(form, given)) for form, given in some]


def one_list():
    for string in STRINGS:
        for ends in tables(string):
            yield "5", (b"f", (string, ends), b"Bool", b"true")
            yield "7", (b"f", (string, ends), b"Bool")


def two_lists():
    """A few tables beside each: the first, the second, both or none of them wrong."""
    lists = [(b"", []), (b"", [0]), (b"XY", [1, 2]), (b"XY", [1]), (b"XY", []), (b"XY", [2, 1]), (b"XY", [3]), (b"XY", [0, 0]), (b"", [1])]
    return (("8", (b"D", *pair)) for pair in product(lists, repeat=2))


def long_lines():
    """Lines as long as the room, and a byte longer; a wrong table comes before that."""
    name = b"n" * (ROOM - 100)
    for more in (0, 1):
        yield "3", (b"c" * (ROOM - 3 + more),)
        yield "7", (name, (b"s" * 81, [40, 80 + more]), b"")
        yield "7", (name, (b"s" * 80, [40, 80 + more]), b"")


def ranges():
    """Where each range comes from, and its pairs of case and answer."""
    return [
        ("document 01's tables of ends: define-fun and declare-fun with tables that rise, fall, pass the string, leave bytes over and are odd; its second reading answers",
         answers(one_list())),
        ("the same for declare-datatype, two tables at a time; its second reading answers", answers(two_lists())),
        ("lines as long as the 4,096 bytes that the program lends, and a byte longer; its second reading answers", answers(long_lines())),
    ]
