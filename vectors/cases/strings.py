"""Cases for `decode_string`: the inside of a string literal, as bytes."""

from cases.common import KINDS, around, every, letters, up_to

CODE_POINTS = around(0x0, 0x7F, 0x80, 0x7FF, 0x800, 0xFFF, 0x1000, 0xD7FF, 0xD800, 0xDFFF, 0xE000, 0xFFFF,
                     0x10000, 0x10FFF, 0x2FFFF, 0x30000, 0x10FFFF, 0x110000, 0xFFFFFF)
LONGEST = 29_999

EDGES = [
    b"", b'"', b'""', b'"""', b'""""', b'a"b', b'a""b', b'\\"', b'\\""', b"\\", b"\\\\", b"\\u", b"\\u{", b"\\u{}",
    b"\\ud800", b"\\udfff", b"\\ud7ff", b"\\ue000", b"\\u{d800}", b"\\u{dfff}", b"\\u{000041}", b"\\u{0000041}",
    b"\\u0041", b"\\u004", b"\\u00411", b"\\u{41", b"\\u{41}}", b"\\u{41}\\u{42}", b"\\u{4 1}", b"\\u{g}", b"\\u{2ffff}",
    b"\\u{30000}", b"\\u{02ffff}", b"\\u{030000}", b"\\U0041", b"\\U{41}", b"\\u{\\u{41}}", b"\\\\u{41}", b"\\u\\u0041",
    b"\\u{22}", b"\\u0022", b"\\u{5c}u{41}", b"\\u{41\"}", b"\\u{41\"\"}", b"\\u{\xc3\xa9}", b"\xff", b"\x80", b"\x7f",
    b"\xc3\xa9", b"\xed\xa0\x80", b"\\x41", b"\\n", b"\\u{d800}\\u{41}", b"\\u{41}\\u{d800}", b"a\\ud800", b"\\u{0d800}",
]


def braced():
    """Every digit count from 0 to 8 in braces, with the numbers at which a rule changes, closed and left open."""
    for count in range(9):
        for number in CODE_POINTS:
            if len(f"{number:x}") <= count or (count == 0 and number == 0):
                for digits in (f"{number:0{count}x}", f"{number:0{count}X}"):
                    digits = digits.encode() if count else b""
                    yield from (b"\\u{" + digits + after for after in (b"}", b"}z", b"", b"g}"))


def plain():
    """Four digits without braces, whole and cut short, in both cases."""
    for number in CODE_POINTS:
        if number <= 0xFFFF:
            for digits in (b"%04x" % number, b"%04X" % number):
                yield from (b"\\u" + digits[:count] + after for count in (3, 4) for after in (b"", b"z", b"0", b"\\"))


def long_runs():
    """Long runs of one piece, some just short of a closing byte, and one as long as a case may be."""
    pieces = [b"\\", b"\\u", b"\\u{", b"\\u{41}", b"\\u{2ffff}", b"\\u0041", b"\\u{0000", b'"', b"\xff", b"\\ue000", b"a"]
    for piece in pieces:
        for count in (16, 17, 255, 1024):
            yield piece * count
    yield b"\\u{41}" * 300 + b"\\ud800"
    yield b"\\u{30000}" * 300
    yield (b"\x80\\u{7ff}\"\"\\u" * LONGEST)[:LONGEST]


def random_ones(rng, count):
    """Pieces in random order: escapes good and bad, quotes, raw bytes."""
    for _ in range(count):
        yield b"".join(piece(rng) for _ in range(rng.randrange(1, 9)))


def piece(rng):
    """One random piece."""
    pick = rng.randrange(8)
    if pick == 0:
        return bytes([rng.randrange(256)])
    if pick == 1:
        return rng.choice([b'"', b'""', b"\\", b"\\\\", b"\\u", b"\\u{", b"}", b"{"])
    if pick == 2:
        return b"\\u%04x" % rng.randrange(0x10000)
    if pick == 3:
        return b"\\u" + bytes(rng.choice(b"0123456789abcdefABCDEFg}") for _ in range(4))
    if pick == 4:
        return b"\\u{%x}" % rng.choice([rng.randrange(0x30002), rng.choice(CODE_POINTS)])
    if pick == 5:
        return b"\\u{" + bytes(rng.choice(b"0123fFdD8") for _ in range(rng.randrange(9))) + b"}"
    if pick == 6:
        return chr(rng.choice([0xE9, 0x7FF, 0x20AC, 0x1F600])).encode()
    return bytes(rng.randrange(0x20, 0x7F) for _ in range(rng.randrange(1, 6)))


def ranges(rng, replies):
    """Where each range of the list comes from, and its cases."""
    inside = sorted({part for reply in replies for part in reply.split(b'"')[1::2]})
    return [
        ("document 01's samples and the edges of its rule for strings", EDGES),
        ("every single byte", (bytes([byte]) for byte in range(256))),
        ("every pair over one byte of each kind", every(KINDS, 2)),
        ("every string over `\\` `u` `{` `}` `\"` `4` `z` up to 5 bytes", up_to(letters(b'\\u{}"4z'), 5)),
        ("`\\u` and every 4 bytes over `0` `d` `8` `F` `g` `{` `}`", (b"\\u" + rest for rest in every(letters(b"0d8Fg{}"), 4))),
        ("`\\u{` and every string over `2` `f` `}` `g` up to 6 bytes", (b"\\u{" + rest for rest in up_to(letters(b"2f}g"), 6))),
        ("0 to 8 digits in braces, the numbers at which a rule changes", braced()),
        ("3 and 4 digits without braces, the numbers at which a rule changes", plain()),
        ("long runs", long_runs()),
        ("the insides of the strings of the real replies", inside),
        ("random pieces, by the seed", random_ones(rng, 6000)),
    ]
