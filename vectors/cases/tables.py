"""Cases for the tables: texts of tables.txt, rooms, words of their own, and what is looked for in them.

A case is a letter and its fields (crates/replay_tables/src/cases.rt). A field of bytes is in hexadecimal; points part it, and a
part with `*` and a number behind it goes on again and again until it is so long. The answers are document 01's, by its second
reading in tabling.py, with no Rust at hand.
"""

from itertools import product

from cases import tabling
from cases.tabling import KEPT, KINDS, PLAIN

BOOL = b"sort=bool\n"
ENTITY = b"sort=entity E\n"
SAMPLE = b"sort=bool\nsort=bitvec 8\nsort=option 1\nvar=x 2\nfun=f 1 0\n"
FULL = (b"sort=bool\nsort=string\nsort=decimal\nsort=datetime\nsort=duration\nsort=bitvec 128\nsort=option 0\nsort=set 6\nsort=entity E\n"
        b"sort=record R 0 8 7 0\nsort=record Q\nsort=entity F\nvar=x 0\nvar=y 11\nfun=f 0 11\nfun=x 9 10\nenum=a 8 one text\nenum=b 11 \n")


def spelled(parts):
    """A row of byte strings and of pairs, a byte string and how long it goes on."""
    return b"".join(part if isinstance(part, bytes) else (part[0] * part[1])[:part[1]] for part in parts)


def field(parts):
    return ".".join(part.hex() if isinstance(part, bytes) else f"{part[0].hex()}*{part[1]:x}" for part in parts)


def text(*parts):
    return f"T {field(parts)}", tabling.read(spelled(parts))


def in_rooms(raw, rooms):
    return f"R {','.join(f'{room:x}' for room in rooms)} {raw.hex()}", tabling.read(raw, rooms)


def words(sorts=(), fields=(), variables=(), functions=(), members=(), names=(b"",)):
    lists = [list(some) for some in (sorts, fields, variables, functions, members)]
    case = " ".join(["K", *(",".join(f"{word:x}" for word in some) or "-" for some in lists), field(names)])
    return case, tabling.checked(lists, spelled(names))


def search(raw, kind, key):
    shown = f"{key[0]:x},{key[1]:x}" if kind == "s" else key.hex()
    return f"F {kind} {shown} {raw.hex()}", tabling.found(raw, kind, key)


def tag(number):
    """A name of two letters, another for each number below 2,704."""
    letters = b"abcdefghijklmnopqrstuvwxyzABCDEFGHIJKLMNOPQRSTUVWXYZ"
    return bytes([letters[number // 52], letters[number % 52]])


def limits():
    """Each limit met, and passed by one."""
    for rows in (1023, 1024, 1025):
        yield text(b"".join(b"sort=entity %s\n" % tag(row) for row in range(rows)))
        yield text(BOOL, b"".join(b"var=%s 0\n" % tag(row) for row in range(rows)))
        yield text(BOOL, b"".join(b"fun=%s 0 0\n" % tag(row) for row in range(rows)))
        yield text(ENTITY, b"".join(b"enum=%s 0 \n" % tag(row) for row in range(rows)))
        yield text(BOOL, b"".join(b"sort=%s %d\n" % ((b"option", b"set")[row % 2], row // 2) for row in range(rows - 1)))
    for fields in (0, 1, 255, 256, 257, 300):
        yield text(BOOL, b"sort=record R", (b" 0", 2 * fields), b"\n")
        yield text(BOOL, b"sort=record R", (b" 0", 2 * fields), b"\nsort=record Q", (b" 1", 512), b"\nvar=v 2\n")
    for width in (0, 1, 2, 9, 10, 64, 99, 100, 127, 128, 129, 999, 1000, 9999, 10000):
        yield text(b"sort=bitvec %d\n" % width)
    last = b"".join(b"sort=entity %s\n" % tag(row) for row in range(1023))
    for row in (1022, 1023, 1024, 1025):
        yield text(last, b"sort=option %d\n" % row)
        yield text(last, b"sort=bool\nvar=v %d\n" % row)
        yield text(last, b"sort=bool\nfun=f 0 %d\n" % row)
        yield text(last, b"sort=entity Z\nenum=m %d t\n" % row)
    for size in (65_535, 65_536, 65_537):
        yield text(BOOL, b"var=", (b"v", size - 17), b" 0\n")
        yield text(b"sort=entity ", (b"e", size - 13), b"\n")
        yield text(b"sort=record ", (b"r", size - 13), b"\n")
        yield text(ENTITY, b"enum=m 0 ", (b"\xc3\xa9", size - 24), b"\n")
        yield text(ENTITY, b"enum=m 0 ", (b"t", size - 24), b"\n")
        yield text(ENTITY, b"enum=m 0 ", (b"t", size - 23))
        yield text((b"\n", size))
        yield text((b"x", size))
    records = [part for row in range(124) for part in (b"sort=record %s" % tag(row), (b" 0", 512), b"\n")]
    yield text(BOOL, *records)
    yield text(b"sort=string\n", b"sort=record aa", (b" 0", 65_534 - 26), b"\n")


def orders():
    """Sorts of themselves, of lower rows and of higher ones; equal rows; names that are there twice."""
    for kind in (b"option", b"set"):
        for row in (0, 1, 2, 3, 4):
            yield text(b"sort=bool\nsort=string\nsort=%s %d\nsort=duration\n" % (kind, row))
        yield text(b"sort=%s 0\n" % kind)
    for row in (0, 1, 2, 3, 4):
        yield text(b"sort=bool\nsort=string\nsort=record R 0 %d 1\nsort=duration\n" % row)
    yield text(b"sort=record R 0\n")
    yield text(b"sort=record R\n")
    rows = [b"bool", b"string", b"decimal", b"datetime", b"duration", b"bitvec 8", b"bitvec 9", b"option 0", b"option 1", b"set 0", b"set 1",
            b"entity E", b"entity F", b"record E", b"record F", b"record F 0"]
    for one in rows:
        for other in rows:
            yield text(b"sort=entity A\nsort=entity B\n", b"sort=%s\nsort=%s\n" % (one, other))
    yield text(BOOL, b"var=v 0\nvar=v 0\n")
    yield text(BOOL, b"var=v 0\nvar=w 0\nvar=v 0\n")
    yield text(BOOL, b"fun=v 0 0\nfun=v 0 0\n")
    yield text(BOOL, b"sort=string\nfun=v 0 0\nfun=w 0 0\nfun=v 1 1\n")
    yield text(ENTITY, b"enum=v 0 a\nenum=v 0 b\n")
    yield text(ENTITY, b"enum=v 0 a\nenum=w 0 a\n")
    yield text(ENTITY, b"var=E 0\nfun=E 0 0\nenum=E 0 E\n")
    yield text(ENTITY, b"sort=record R\nvar=a 0\nfun=a 1 0\nenum=a 0 a\n")
    yield text(BOOL, b"var=v 0\nvar=V 0\nvar=vv 0\nvar=|v| 0\n")
    for row in (0, 1, 2):
        yield text(BOOL, b"sort=string\nvar=v %d\n" % row)
        for other in (0, 1, 2):
            yield text(BOOL, b"sort=string\nfun=f %d %d\n" % (row, other))
    for row in range(13):
        yield text(b"sort=bool\nsort=string\nsort=decimal\nsort=datetime\nsort=duration\nsort=bitvec 1\nsort=option 0\n"
                   b"sort=set 0\nsort=entity E\nsort=record R\nsort=entity F\nenum=m %d t\n" % row)


NAMES = [b"", b"a", b"a(", b"(", b"a)", b")a", b'"', b'a"', b'"a"', b";", b"a;", b";a", b"#", b"a#", b"#b1", b"#xF", b"0", b"7a", b"a7",
         b"-7", b"+", b"=", b"a=b", b"==", b"|", b"||", b"|a|", b"|a", b"\t", b"a\tb", b"\x0b", b"a\x0bb", b"a\x0cb", b"\x0c", b"\r",
         b"a\r", b"a\rb", b"\x00", b"a\x00", b"\x7f", b"'", b"a,b", b":a", b"\\", b"{", b"~", b"\xc3\xa9", b"\xc3", b"a\xc3", b"\xa9",
         b"\xc0\x80", b"\xe2\x82\xac", b"\xe2\x82", b"\xed\x9f\xbf", b"\xed\xa0\x80", b"\xee\x80\x80", b"\xf0\x9f\x98\x80",
         b"\xf0\x8f\xbf\xbf", b"\xf4\x8f\xbf\xbf", b"\xf4\x90\x80\x80", b"\xff", b"\xfe\xff", b"\xc2\xa0", b"\xc2\x85", b"\xe2\x80\xa8",
         b"true1", b"True", b"tru", b"IPAddr", b"set", b"sort=bool", b"bool", b"and", b"define-fun", b"set.", b"set.unio", b"set.unions",
         b"bv8", b"bvsubo", b"V5", b"__", b"Int", b"Array", b"let"]


def names():
    """Names of each class of byte and kept words, in each table."""
    some = NAMES + sorted(KEPT) + [bytes([byte]) for byte in range(256)] + [b"a%cb" % byte for byte in range(128)]
    for name in some:
        yield text(b"sort=entity %s\n" % name)
        yield text(b"sort=record %s\n" % name)
        yield text(BOOL, b"var=%s 0\n" % name)
        yield text(BOOL, b"fun=%s 0 0\n" % name)
        yield text(ENTITY, b"enum=%s 0 t\n" % name)


MEMBER_TEXTS = [b"", b" ", b"  ", b"a", b" a", b"a ", b"a b  c", b"0", b"enum=b 0 c", b"\t", b"\r", b"a\r", b"\x00", b'"', b"()", b"=",
                b"\xc3\xa9", b"\xc3", b"a\xc3", b"\xa9", b"\xff", b"\xed\xa0\x80", b"\xf4\x8f\xbf\xbf", b"\xf4\x90\x80\x80", b"\xc0\x80",
                b"\xef\xbb\xbf", b"\xc3 \xa9", b"true"]

LINES = [b"", b"\n", b"\n\n", b"sort=bool", b"sort=bool\n\n", b"\nsort=bool\n", b"sort=bool\n\nsort=string\n", b"sort=bool\r\n",
         b"sort=bool \n", b" sort=bool\n", b"sort= bool\n", b"sort =bool\n", b"sort==bool\n", b"sort=\n", b"sort\n", b"sort\nsort=bool\n",
         b"SORT=bool\n", b"Sort=bool\n", b"sort=Bool\n", b"sort=BOOL\n", b"sort=bools\n", b"sort=boo\n", b"sort=bool 0\n",
         b"sort=string 1\n", b"sort=decimal \n", b"sort=datetime\n", b"sort=dateTime\n", b"sort=duration\x00\n", b"sort=ipaddr\n",
         b"sort=int\n", b"sort=bitvec\n", b"sort=bitvec \n", b"sort=bitvec  8\n", b"sort=bitvec 8 \n", b"sort=bitvec 8 8\n",
         b"sort=bitvec 08\n", b"sort=bitvec +8\n", b"sort=bitvec -8\n", b"sort=bitvec 8a\n", b"sort=bitvec a\n", b"sort=bitvec 0x8\n",
         b"sort=bitvec 8.\n", b"sort=bitvec8\n", b"sort=bitvec\t8\n", b"sort=bitvec 8\r\n", b"sort=bitvec 8", b"sort=bitvec 8\x00\n",
         b"sort=bitvec /\n", b"sort=bitvec :\n", b"sort=bitvec 1/\n", b"sort=bitvec 1:\n", b"sort=bitvec \xd9\xa1\n",
         b"sort=bool\nsort=option 00\n", b"sort=bool\nsort=option 0 \n", b"sort=bool\nsort=option  0\n", b"sort=bool\nsort=option\n",
         b"sort=bool\nsort=option 0 0\n", b"sort=bool\nsort=set 0\nsort=set 01\n", b"sort=bool\nsort=set0\n", b"sort=bool\nsort=set 0 1\n",
         b"sort=bool\nsort=sets 0\n", b"sort=entity\n", b"sort=entity \n", b"sort=entity  E\n", b"sort=entity E \n", b"sort=entity E F\n",
         b"sort=entity E 0\n", b"sort=entityE\n", b"sort=entity E\r\n", b"sort=record\n", b"sort=record \n", b"sort=record R \n",
         b"sort=record  R\n", b"sort=bool\nsort=record R 0\n", b"sort=bool\nsort=record R 0 \n", b"sort=bool\nsort=record R  0\n",
         b"sort=bool\nsort=record R 00\n", b"sort=bool\nsort=record R 0 0 0\n", b"sort=bool\nsort=record R 0  0\n",
         b"sort=bool\nsort=record R 0,0\n", b"sort=bool\nsort=record R a\n", b"sort=bool\nsort=record 0\n", b"sort=bool\nsort=record 0 0\n",
         b"sort=bool\nsort=record R -0\n", b"sort=bool\nrecord=R 0\n", b"sort=bool\nvar=v 0\n", b"sort=bool\nvar=v 0",
         b"sort=bool\nvar=v\n", b"sort=bool\nvar=v \n", b"sort=bool\nvar= 0\n", b"sort=bool\nvar=0\n", b"sort=bool\nvar=v  0\n",
         b"sort=bool\nvar=v 0 \n", b"sort=bool\nvar=v 0 0\n", b"sort=bool\nvar=v 00\n", b"sort=bool\nvar=v 0\r\n", b"sort=bool\nvar=v a\n",
         b"sort=bool\nvar v 0\n", b"sort=bool\nvar=a=b 0\n", b"sort=bool\nvar== 0\n", b"sort=bool\nvar=var= 0\n", b"sort=bool\nVar=v 0\n",
         b"sort=bool\nvariable=v 0\n", b"sort=bool\nva=v 0\n", b"sort=bool\n var=v 0\n", b"sort=bool\nfun=f 0 0\n", b"sort=bool\nfun=f 0\n",
         b"sort=bool\nfun=f\n", b"sort=bool\nfun=f 0 \n", b"sort=bool\nfun=f  0 0\n", b"sort=bool\nfun=f 0  0\n",
         b"sort=bool\nfun=f 0 0 \n", b"sort=bool\nfun=f 0 0 0\n", b"sort=bool\nfun=f 00 0\n", b"sort=bool\nfun=f 0 00\n",
         b"sort=bool\nfun=f 0 0", b"sort=bool\nfun=f 0 0\r\n", b"sort=bool\nfun=a=b 0 0\n", b"sort=bool\nfun= 0 0\n",
         b"sort=bool\nfunc=f 0 0\n", b"sort=bool\nFUN=f 0 0\n", b"sort=bool\nfun=f a 0\n", b"sort=bool\nfun=f 0 a\n",
         b"sort=entity E\nenum=m 0 t\n", b"sort=entity E\nenum=m 0 t", b"sort=entity E\nenum=m 0 \n", b"sort=entity E\nenum=m 0\n",
         b"sort=entity E\nenum=m\n", b"sort=entity E\nenum=\n", b"sort=entity E\nenum=m  0 t\n", b"sort=entity E\nenum=m 0  t\n",
         b"sort=entity E\nenum=m 00 t\n", b"sort=entity E\nenum=m a t\n", b"sort=entity E\nenum= 0 t\n", b"sort=entity E\nenum=a=b 0 t\n",
         b"sort=entity E\nENUM=m 0 t\n", b"sort=entity E\nenums=m 0 t\n", b"sort=entity E\nenum=m 0 t\r\n",
         b"sort=entity E\nenum=m 0 t\n\n", b"sort=entity E\nenum=m 0 t\nenum=n 0 t\nx\n", b"bool\n", b"=\n", b"=bool\n", b"x", b"x\n",
         b"\r\n", b"\x00", b"\xef\xbb\xbfsort=bool\n", b"# sort\n", b"; sort\n", b"var=v 0\n", b"fun=f 0 0\n", b"enum=m 0 t\n", SAMPLE,
         FULL]


def forms():
    """Lines of another form, and the kinds in another order."""
    for raw in LINES:
        yield text(raw)
    for told in MEMBER_TEXTS:
        yield text(ENTITY, b"enum=m 0 %s\n" % told)
    firsts = (b"sort=bool\n", b"var=a 0\n", b"fun=a 0 0\n", b"enum=a 0 t\n")
    seconds = (b"sort=string\n", b"var=b 0\n", b"fun=b 0 0\n", b"enum=b 0 t\n")
    thirds = (b"sort=set 0\n", b"var=c 0\n", b"fun=c 0 0\n", b"enum=c 0 t\n")
    for lines in product(firsts, seconds, thirds):
        yield text(ENTITY, *lines)
    for digits in range(1, 21):
        for number in (b"1" * digits, b"9" * digits, b"0" * digits, b"1" + b"0" * (digits - 1)):
            yield text(b"sort=bitvec %s\n" % number)
            yield text(b"sort=bool\nsort=string\nsort=option %s\n" % number)
            yield text(b"sort=bool\nsort=string\nsort=record R 0 %s\n" % number)
            yield text(b"sort=bool\nsort=string\nvar=v %s\n" % number)
            yield text(b"sort=bool\nsort=string\nfun=f %s 0\n" % number)
            yield text(b"sort=bool\nsort=string\nfun=f 0 %s\n" % number)
            yield text(b"sort=entity E\nsort=entity F\nenum=m %s t\n" % number)
    for power in (2 ** 32, 2 ** 63, 2 ** 64, 2 ** 64 + 1, 2 ** 128, 2 ** 128 + 1):
        yield text(b"sort=bitvec %d\n" % power)
        yield text(BOOL, b"var=v %d\n" % power)
    for at in range(len(SAMPLE) + 1):
        yield text(SAMPLE[:at])
        yield text(SAMPLE[at:])


def fresh(rng, taken):
    """A name that is not taken, most of them short."""
    letters = [b"a", b"b", b"R", b"_", b".", b"=", b"|", b"-", b"1", b"\xc3\xa9", b"\xe2\x82\xac", b"\x0b", b"set"]
    while True:
        name = rng.choice(letters[:8]) + b"".join(rng.choice(letters) for _ in range(rng.randrange(4)))
        if name not in taken and name not in KEPT:
            taken.add(name)
            return name


def lawful(rng):
    """The lines of tables that break no rule."""
    sorts, names, kinds, seen = [], set(), [], set()
    for row in range(rng.randrange(1, 14)):
        kind = rng.choice(KINDS)
        key = (kind, rng.randrange(1, 129) if kind == "bitvec" else rng.randrange(row) if kind in ("option", "set") and row else None)
        if kind in ("entity", "record") or key in seen or (kind in ("option", "set") and not row):
            kind = rng.choice(("entity", "record"))
            fields = b"".join(b" %d" % rng.randrange(row) for _ in range(rng.randrange(6))) if kind == "record" and row else b""
            sorts.append(b"sort=%s %s%s\n" % (kind.encode(), fresh(rng, names), fields))
        else:
            seen.add(key)
            sorts.append(b"sort=%s\n" % kind.encode() if kind in PLAIN else b"sort=%s %d\n" % (kind.encode(), key[1]))
        kinds.append(kind)
    count = len(sorts)
    taken = [set(), set(), set()]
    variables = [b"var=%s %d\n" % (fresh(rng, taken[0]), rng.randrange(count)) for _ in range(rng.randrange(5))]
    functions = [b"fun=%s %d %d\n" % (fresh(rng, taken[1]), rng.randrange(count), rng.randrange(count)) for _ in range(rng.randrange(5))]
    entities = [row for row, kind in enumerate(kinds) if kind == "entity"]
    members = [b"enum=%s %d %s\n" % (fresh(rng, taken[2]), rng.choice(entities), rng.choice((b"", b"t", b"a b", b"\xc3\xa9", b"x  y ")))
               for _ in range(rng.randrange(5) if entities else 0)]
    return sorts + variables + functions + members


def damaged(rng):
    """A lawful text after one or two changes to its bytes or its lines."""
    lines = lawful(rng)
    if rng.randrange(3) == 0:
        at, to = rng.randrange(len(lines)), rng.randrange(len(lines))
        lines = rng.choice((lines[:at] + lines[at + 1:], lines[:to] + [lines[at]] + lines[to:], lines[:at] + [lines[to]] + lines[at + 1:]))
    raw = bytearray(b"".join(lines))
    for _ in range(rng.randrange(1, 3)):
        at = rng.randrange(len(raw) + 1)
        piece = rng.choice([b" ", b"\n", b"0", b"1", b"9", b"=", b"e", b"\xc3", b"(", b"\r", b";", b""])
        raw[at:at + rng.randrange(2)] = piece
    return bytes(raw)


PLACES = ((0, 0), (0, 3), (0, 4), (1, 2), (1, 3), (2, 1), (3, 0), (3, 1), (4, 0), (2 ** 64 - 1, 1), (2 ** 64 - 1, 2), (1, 2 ** 64 - 1),
          (0, 2 ** 63), (2 ** 63, 2 ** 63))
ONE_ENTITY = [0, 1, 9, 0, 0]


def unformed():
    """Faults of the form itself, on words that no text gives: kinds, rows that are not whole, places outside."""
    for kind in (*range(13), 2 ** 32, 2 ** 64 - 1):
        yield words([0, 1, kind, 0, 0], names=[b"E"])
        yield words([0, 1, kind, 1, 0], names=[b"E"])
        yield words([*ONE_ENTITY, 1, 1, kind, 1, 0], [0], names=[b"EF"])
        yield words([9, 9, kind, 1, 9], names=[b""])
    for size in range(1, 12):
        yield words([0, 1, 9, 0, 0, 1, 1, 9, 0, 0, 2, 1, 9, 0, 0][:size], names=[b"EFG"])
        rows = [0, 1, 0, 0, 0, 1, 1, 0, 0, 0, 2, 1][:size]
        yield words(ONE_ENTITY, variables=rows, names=[b"EFG"])
        yield words(ONE_ENTITY, functions=rows, names=[b"EFG"])
        yield words(ONE_ENTITY, members=[0, 1, 0, 0, 1, 1, 1, 0, 0, 0, 2, 1][:size], names=[b"EFG"])
    for place in PLACES:
        yield words([*place, 9, 0, 0], names=[b"abc"])
        yield words([*place, 10, 0, 0], names=[b"abc"])
        yield words([*ONE_ENTITY, 1, 1, 10, *place], [0, 0, 0], names=[b"abc"])
        yield words(ONE_ENTITY, variables=[*place, 0, 0, 0], names=[b"abc"])
        yield words(ONE_ENTITY, functions=[*place, 0, 0, 0], names=[b"abc"])
        yield words(ONE_ENTITY, members=[*place, 0, 0, 0], names=[b"abc"])
        yield words(ONE_ENTITY, members=[0, 1, 0, *place], names=[b"abc"])


def large():
    """Fields, names and rows at their limits, as words: no text can hold so long a name."""
    for fields in ([0], [1], [2], [0, 2], [2 ** 64 - 1], [0] * 256, [0] * 257, [0] * 255 + [2], [0] * 256 + [2]):
        yield words([*ONE_ENTITY, 1, 1, 10, 0, len(fields)], fields, names=[b"ab"])
        yield words([*ONE_ENTITY, 1, 1, 10, 0, 1], fields, names=[b"ab"])
    for size in (65_535, 65_536, 65_537, 65_600):
        name = [(b"n", size)]
        yield words([0, size, 9, 0, 0], names=name)
        yield words([0, size, 10, 0, 0], names=name)
        yield words(ONE_ENTITY, variables=[0, size, 0, 0, 0], names=name)
        yield words(ONE_ENTITY, functions=[0, size, 0, 0, 0], names=name)
        yield words(ONE_ENTITY, members=[0, size, 0, 0, 0], names=name)
        yield words(ONE_ENTITY, members=[0, 1, 0, 0, size], names=name)
    many = spelled([tag(row) for row in range(1026)])
    for count in (1024, 1025, 1026):
        rows = [word for row in range(count) for word in (2 * row, 2, 0, 0, 0)]
        yield words([word for row in range(count) for word in (2 * row, 2, 9, 0, 0)], names=[many])
        yield words(ONE_ENTITY, variables=rows, names=[many])
        yield words(ONE_ENTITY, functions=rows, names=[many])
        yield words(ONE_ENTITY, members=rows, names=[many])


def unwritten():
    """Rows with names, numbers and repeats that no line spells so."""
    for name in (b"a b", b"a\nb", b" a", b"a ", b"a\n", b"\na", b"", b"true", b"a"):
        yield words([0, len(name), 9, 0, 0], names=[name])
        yield words([0, 0, 1, 0, 0], variables=[0, len(name), 0, 7, 7], names=[name])
        yield words([len(name), 1, 9, 0, 0], members=[0, len(name), 0, 0, len(name)], names=[name + b"E"])
    for number in (0, 1, 128, 129, 2 ** 64 - 1):
        yield words([7, 7, 6, number, 9])
        yield words([7, 7, 1, 0, 0, 7, 7, 7, number, 9])
        yield words(ONE_ENTITY, variables=[0, 1, number, 0, 0], names=[b"E"])
        yield words(ONE_ENTITY, functions=[0, 1, number, 0, 0], names=[b"E"])
        yield words(ONE_ENTITY, functions=[0, 1, 0, number, 0], names=[b"E"])
        yield words(ONE_ENTITY, members=[0, 1, number, 0, 0], names=[b"E"])
    yield words()
    yield words([*ONE_ENTITY, 1, 1, 9, 0, 0], names=[b"EE"])
    yield words([*ONE_ENTITY, 1, 1, 10, 0, 0], names=[b"EE"])
    yield words([0, 0, 1, 5, 5, 1, 1, 1, 6, 6], names=[b"EE"])
    yield words([*ONE_ENTITY, 0, 1, 1, 0, 0], names=[b"E"])
    yield words(ONE_ENTITY, variables=[0, 1, 0, 0, 0, 1, 1, 0, 0, 0], names=[b"EE"])


def searches():
    """Names and sorts that are there, and others."""
    for kind in "vfmn":
        for name in (b"x", b"y", b"f", b"a", b"b", b"E", b"F", b"R", b"Q", b"", b"xx", b"X", b"bool"):
            yield search(FULL, kind, name)
    for kind in range(1, 9):
        for number in (0, 1, 6, 8, 128):
            yield search(FULL, "s", (kind, number))
            yield search(SAMPLE, "s", (kind, number))


def rooms():
    """Each buffer just enough and one short, with the others in plenty, just enough or none."""
    for raw in (FULL, SAMPLE, BOOL, ENTITY + b"enum=m 0 t\n", b""):
        tables = tabling.parsed(raw)
        needs = [len(some) for some in tabling.laid(raw, tables)]
        yield in_rooms(raw, needs)
        yield in_rooms(raw, [need + 1 for need in needs])
        yield in_rooms(raw, [need + 5 for need in needs])
        yield in_rooms(raw, [0] * 5)
        for place, need in enumerate(needs):
            for room in sorted({max(need - 1, 0), max(need - 5, 0), 0, need + 1, need + 4}):
                for others in (needs, [other + 7 for other in needs], needs[:place + 1] + [0] * (4 - place)):
                    yield in_rooms(raw, [*others[:place], room, *others[place + 1:]])
    for raw in (b"x", b"sort=bool\nsort=bool\n", b"var=v 0\n", b"sort=bool"):
        yield in_rooms(raw, [0] * 5)
        yield in_rooms(raw, [20] * 5)


def drawn(count, draw):
    """So many texts, each another one."""
    found = {}
    while len(found) < count:
        found[draw()] = None
    return [text(raw) for raw in found]


def ranges(rng, replies):
    """Where each range comes from, and its pairs of case and answer."""
    return [
        ("document 01's limits on tables, names and texts, met and passed by one", list(limits())),
        ("sorts of lower and higher rows, equal rows, names that are there twice, rows out of range", list(orders())),
        ("names: each class of byte, UTF-8's borders and the kept words, in each table", list(names())),
        ("lines of another form, members' texts, other orders of kinds, numbers of 1 to 20 digits", list(forms())),
        ("the tables of the real replies", [text(raw) for raw in replies]),
        ("random lawful tables, by the seed", drawn(305, lambda: b"".join(lawful(rng)))),
        ("random damaged tables, by the seed", drawn(300, lambda: damaged(rng))),
        ("words of no form, words that no text gives, and names at their limit", [*unformed(), *large(), *unwritten()]),
        ("names and sorts looked for in tables", list(searches())),
        ("rooms just enough and short, all that was lent looked at", list(rooms())),
    ]
