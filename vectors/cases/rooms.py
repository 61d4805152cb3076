"""Cases for `parse_sexpr` in rooms of their own: enough to the last word, byte and entry, and short of each by one.

A case is `R`, the rooms (words, text bytes, stack entries; four hexadecimal digits each) and the input in hexadecimal
(crates/replay_trees/src/cases.rt). The answers are document 01's, by its second reading, with no Rust at hand.
"""

from itertools import product

import reading

STRIDE = 4
MARK = 0xEE
MARKED_WORD = int.from_bytes(bytes([MARK]) * 8, "big")

READ = [b"a", b"()", b'""', b"7", b"#b1", b'(a #xF "b")', b"(()(()))", b'"\xff\xff"', b"((ab) 340282366920938463463374607431768211455)",
        b'(define-fun |x| () String "\\u{e9}""")', b"; c\n(a(b(c)d)e)"]
REFUSED = [b"", b"(", b")", b"a b", b') "', b"#", b"#b", b"12ab", b'"\\ud800"', b"\xff", b"(a", b"())", b'(a "', b"(\xc3 a)"]


def words(some):
    """A node's words are parted by commas, nodes by semicolons; every lent word is shown, also of an unfinished node."""
    groups = [some[at:at + STRIDE] for at in range(0, len(some), STRIDE)]
    return ";".join(",".join(f"{word:x}" for word in group) for group in groups)


def shown(answer, nodes, text, stack):
    return f"{answer} words={words(nodes)} bytes={text.hex()} stack={words(stack)}"


def over(front, marked):
    """What is written at the front, and behind it what was there."""
    return front + marked[len(front):]


def short(arena, rooms):
    """The first need that has no room, with its number: nodes, then text, then open brackets."""
    needs = (len(arena.nodes), len(arena.text), arena.depth)
    having = (rooms[0] // STRIDE, rooms[1], rooms[2])
    for number, need, room in zip((10, 11, 12), needs, having):
        if need > room:
            return f"refused={number} detail={need}"
    return None


def answered(raw, rooms):
    """The answer, and all that was lent afterwards; a refusal leaves it as it was."""
    marked = ([MARKED_WORD] * rooms[0], bytes([MARK]) * rooms[1], [MARKED_WORD] * rooms[2])
    try:
        arena = reading.Arena(raw)
    except reading.Refused as refusal:
        return shown(f"{refusal} detail=0", *marked)
    refused = short(arena, rooms)
    if refused:
        return shown(refused, *marked)
    nodes = [word for node in arena.nodes for word in node]
    return shown(f"nodes={len(arena.nodes)} text={len(arena.text)} depth={arena.depth}",
                 over(nodes, marked[0]), over(bytes(arena.text), marked[1]), over([0] * arena.depth, marked[2]))


def near(need):
    return [room for room in (need - 1, need, need + 1) if room >= 0]


def rooms_around(raw):
    """Each room one short, just enough and one more; for the nodes also a word short of one node more."""
    arena = reading.Arena(raw)
    least = len(arena.nodes) * STRIDE
    return product([*near(least), least + STRIDE - 1, 0], near(len(arena.text)), near(arena.depth))


def case(raw, rooms):
    return " ".join(["R", *(f"{room:04x}" for room in rooms), raw.hex()])


def ranges():
    """Where each range comes from, and its pairs of case and answer."""
    read = [(raw, rooms) for raw in READ for rooms in rooms_around(raw)]
    refused = [(raw, rooms) for raw in REFUSED for rooms in ((0, 0, 0), (16, 8, 4))]
    return [
        ("document 01's room checks: trees with rooms one short, just enough and one more, all that was lent shown; its second reading answers",
         [(case(raw, rooms), answered(raw, rooms)) for raw, rooms in read]),
        ("inputs that are refused for another reason, in no room and in plenty; its second reading answers",
         [(case(raw, rooms), answered(raw, rooms)) for raw, rooms in refused]),
    ]
