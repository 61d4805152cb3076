"""Tables and replies at document 01's limits: the lengths of inputs, the rooms that are lent, and what is refused before the walk."""

from cases import listed
from cases.listings import ONE_BOOL, tables

PLAIN = tables(ONE_BOOL).encode()
DEFINED = b"((define-fun b () Bool true))"
BAD = b"sort=bool\nsort=bool\n"
# Each number that the reader gives; the faults come before rooms and after tables.
UNREAD = [
    b"", b" ; c\n", b"(", b'(a "', b"#", b"\xff", b'"\\ud800"', b"#b", b"#x" + b"f" * 33, b"340282366920938463463374607431768211456", b")", b"())",
    b"a b", b"()()",
]
REFUSED_TABLES = [
    BAD, b"sort=bool", b"x\n", b"\n", b"var=b 0\n", b"sort=option 0\n", b"sort=bool\nenum=m 0 x\n", b"sort=entity true\n", b"sort=bitvec 0\n",
    b"sort=bitvec 129\n", b"sort=bitvec 08\n", b"sort=bool\nvar= 0\n", b"sort=bool\nvar=b 0\nvar=b 0\n", b"sort=bool\nvar=a b 0\n",
    b"sort=bool\nvar=7 0\n", b"sort=bool\nvar=\xff 0\n", b"sort=entity E\nenum=m 0 \xff\n", b"sort=bool\nfun=f 0\n", b"sort=bool \n",
    b"sort=bool\r\n", b"sort=entity E\nsort=record E\n", b"var=b 0\nsort=bool\n",
]
# What stands around a skipped body: the root, the command and four of its parts; their text.
AROUND_NODES, AROUND_TEXT = 6, len(b"define-funyZ")


def skipped(body):
    """A model with one definition that is skipped."""
    return b"((define-fun y () Z %s))" % body


def wide(nodes):
    """So many nodes in all."""
    body = nodes - AROUND_NODES
    return skipped(b"(a" * (body // 2) + b"()" * (body % 2) + b")" * (body // 2))


def deep(depth):
    """So many open brackets at most."""
    return skipped(b"(" * (depth - 2) + b")" * (depth - 2))


def told(text, size=None):
    """So much text in all, as a string of bytes that count twice, or of so many bytes in all, some counting twice."""
    left, around = text - AROUND_TEXT, len(skipped(b'""'))
    twice = left // 2 if size is None else left - (size - around)
    return skipped(b'"' + b"\xff" * twice + b"a" * (left - 2 * twice) + b'"')


def long(size):
    """A reply of so many bytes, most of them in a comment."""
    return DEFINED + b";" * (size - len(DEFINED))


def named(build, need):
    """A case whose need is just so: a variable's name is made as long as it takes."""
    size = 1
    while True:
        text, reply = build(b"x" * size)
        found = listed.walked(listed.ROOMS["L"], text, reply)
        missing = need - len(found.listing(True))
        if not missing:
            return text, reply
        size += missing


def repeated(name):
    """One member many times: the need is long, the listing short."""
    one = b"(set.singleton m)"
    value = b"(set.union %s " % one * 31 + one + b")" * 31
    return b"sort=entity E\nsort=set 0\nvar=%s 1\nenum=m 0 %s\n" % (name, b"t" * 1_020), b"((define-fun %s () (Set E) %s))" % (name, value)


def several(name):
    """One member as the value of several names: the listing is as long as its need."""
    names = [b"v%d" % at for at in range(15)] + [name]
    rows = b"".join(b"var=%s 0\n" % each for each in names)
    return b"sort=entity E\n%senum=m 0 %s\n" % (rows, b"t" * 2_034), b"(%s)" % b"\n".join(b"(define-fun %s () E m)" % each for each in names)


def replaced(name):
    """A definition that is replaced counts nothing, however long it is."""
    text, reply = repeated(name)
    return text, reply[:-1] + b"(define-fun %s () (Set E) (set.singleton m)))" % name


def before_the_walk():
    """Refused tables, replies that the reader refuses, empty inputs."""
    found = [("M", text, DEFINED) for text in REFUSED_TABLES] + [("M", PLAIN, reply) for reply in UNREAD]
    found += [("M", BAD, reply) for reply in (b"", b")", b"true", b"()" * 1_100)]
    found += [("M", b"", reply) for reply in (b"", b"()", b"((define-fun y () Z z))", b"true", b"(x)")]
    return found + [("L", BAD, DEFINED), ("L", PLAIN, b"("), ("L", PLAIN, DEFINED), ("L", b"", b""), ("L", PLAIN, b"a")]


def rooms():
    """The rooms, just full and short by one."""
    small, large = listed.ROOMS["M"], listed.ROOMS["L"]
    found = [("M", PLAIN, wide(small.nodes)), ("M", PLAIN, wide(small.nodes + 1)), ("M", PLAIN, wide(small.nodes + 1)[:-1])]
    # No reply is too deep for `modellist`: each open bracket is a node, of which it lends fewer, and 10 comes before 12.
    found += [("L", PLAIN, deep(large.depth + 1)), ("M", PLAIN, told(small.text + 1))]
    for build in (repeated, several):
        found += [("M", *named(build, small.out)), ("M", *named(build, small.out + 1))]
    # A walk that is refused is so before its need is looked at.
    text, reply = named(repeated, small.out + 1)
    return found + [("L", text, reply), ("M", text, reply[:-1] + b" x)"), ("M", *replaced(b"x" * 100))]


def lengths():
    """The longest reply, its text as long as there is room for; and one byte more, which is refused before its tables are."""
    return [("M", PLAIN, told(listed.ROOMS["M"].text, listed.LONGEST)), ("M", BAD, long(listed.LONGEST + 1))]
