"""Cases for `parse_sexpr`: whole inputs, as bytes."""

from cases.common import KINDS, around, every, letters, up_to

EDGES = [
    b"", b")", b"(", b"()", b"a b", b') "', b"#b", b"#x", b"#", b"##", b"#a", b"#B0", b"#b2", b"#b0", b"#x0", b"#xg",
    b'"\\ud800"', b'"\\u{000041}"', b'"\\u{0000041}"', b'""""', b'"', b'""', b'"""', b'"a', b'(a #xF "b")', b"12ab", b"ab12",
    b"\xff", b'"\xff"', b'"\\ud800', b') 12ab "\\ud800"', b") #", b'a "', b"a \xff", b"( \xff", b";", b"; a", b"; a\nb",
    b";\xff\nb", b";x\ra", b"a;b", b"a;b\n", b'a"b"', b"a#b1", b"a(b)", b"1#b1", b'1"a"', b"1;", b"#b01;", b"#b01a", b"#xfg",
    b"|a b|", b"|ab|", b"\x0b", b"a\x0bb", b"a\x0cb", b"\x00", b"\x7f", b"1.5", b"-1", b"+1", b":a", b"'a", b"007", b"#b#b1",
    b"((a) (b c))", b"(()(()))", b"(a", b"a)", b"())", b"(a))", b"() ()", b"()a", b'("a" "b")', b"(1 2)", b"(#b1 #b0)", b"( )",
    b"\xc3\xa9", b"(\xc3\xa9)", b"\xc3", b"(\xc3 \xa9)", b'"\xc3\xa9"', b"\xed\xa0\x80", b"\xc3\n\xa9", b"\xc3;\xa9", b"a\xc3(",
]

# The sequences at the borders of RFC 3629's rows, and one step outside each.
LEADS = [b"\xc1", b"\xc2", b"\xdf", b"\xe0", b"\xe1", b"\xec", b"\xed", b"\xee", b"\xef", b"\xf0", b"\xf1", b"\xf3", b"\xf4", b"\xf5"]
TAILS = [b"\x7f", b"\x80", b"\x8f", b"\x90", b"\x9f", b"\xa0", b"\xbf", b"\xc0"]
WIDTHS = [1, 2, 3, 4, 5, 7, 8, 9, 31, 32, 33, 63, 64, 65, 66, 120, 126, 127, 128, 129, 130, 257]


def utf8():
    """Symbols at the borders of UTF-8: leads with one, two and three tails, whole and cut short."""
    for lead in LEADS:
        for second in TAILS:
            yield lead + second
            yield lead + second + b"\x80"
            yield lead + second + b"\xbf\x80"
            yield b"a" + lead + second + b"\x80\x80)"
    for count in (1, 2, 3):
        yield from (lead + b"\x80" * 3 + b"\xf0\x90\x80\x80"[:count] for lead in (b"\xf1", b"\xf3"))


def numerals():
    """Numerals around the powers at which a word or the number ends."""
    for number in around(0, 9, 2 ** 32, 2 ** 63, 2 ** 64, 2 ** 65, 2 ** 127, 2 ** 128, 2 ** 129, 10 ** 38, 10 ** 39, 10 ** 40):
        yield from (b"%s%d%s" % (zeros, number, after) for zeros in (b"", b"0", b"0" * 50) for after in (b"", b"a", b" "))


def borders(width):
    """Numbers of a width: zeros, ones, the sign bit alone, all but it, and those around 2^64, 2^127 and 2^128."""
    numbers = {0, 1, 2 ** width - 1, 2 ** (width - 1), 2 ** (width - 1) - 1, *around(2 ** 64, 2 ** 127, 2 ** 128)}
    return sorted(number for number in numbers if number < 2 ** width)


def binaries():
    """`#b` of chosen widths."""
    return (b"#b" + f"{number:0{width}b}".encode() for width in WIDTHS for number in borders(width))


def hexadecimals():
    """`#x` of every width up to 34 digits and of two wider ones, in both cases."""
    for digits in [*range(1, 35), 64, 65]:
        for number in borders(4 * digits):
            yield b"#x" + f"{number:0{digits}x}".encode()
            yield b"#x" + f"{number:0{digits}X}".encode()


def deep():
    """Nestings and rows of growing size, closed, left open and closed once too often."""
    for count in (2, 3, 15, 16, 17, 255, 1000, 2500):
        yield from (b"(" * count + b")" * (count + more) for more in (-1, 0, 1))
        yield b"(" + b"()" * count + b")"
        yield b"(" + b"a " * count + b")"
        yield b"(a" * count + b" #b1" + b" 7)" * count
    yield b'("' + b"\xff" * 9000 + b'")'
    yield b"#b" + b"0" * 9000 + b"1" * 128
    yield b"#x" + b"0" * 9000


def with_a_fault(rng, reply):
    """A copy with one fault: a byte taken out, put in, changed, a few bytes doubled, or the end cut off."""
    at = rng.randrange(len(reply))
    byte = rng.choice([b"(", b")", b'"', b"#", b";", b"\\", b" ", b"\n", b"|", b"0", b"\xc3", b"\xff", b"\x0b", bytes([rng.randrange(256)])])
    return rng.choice([reply[:at] + reply[at + 1:], reply[:at] + byte + reply[at:], reply[:at] + byte + reply[at + 1:],
                       reply[:at] + reply[at:at + 5] + reply[at:], reply[:at]])


def damaged(rng, replies, count):
    """Copies of small real replies with one fault each."""
    small = [reply for reply in replies if len(reply) <= 200]
    return (with_a_fault(rng, rng.choice(small)) for _ in range(count))


def soups(rng, count):
    """Random rows of tokens and near tokens."""
    pieces = [b"(", b")", b"(", b")", b" ", b"\n", b"a", b"define-fun", b"#b1", b"#xfF", b"#b", b"7", b"12", b'"', b'"a"', b'""',
              b'"\\u{41}"', b'"\\ud800"', b";", b";c\n", b"\xc3\xa9", b"\xc3", b"#", b"|x y|", b"\x0b", b"\t"]
    weights = [8, 8, 4, 4, 8, 2, 5, 2, 3, 3, 1, 3, 3, 1, 3, 2, 2, 1, 1, 2, 2, 1, 1, 1, 1, 1]
    for _ in range(count):
        yield b"".join(rng.choices(pieces, weights, k=rng.randrange(2, 24)))


def ranges(rng, replies):
    """Where each range of the list comes from, and its cases."""
    middling = [reply for reply in replies if len(reply) <= 2000]
    return [
        ("document 01's samples and the edges of its rules for tokens and brackets", EDGES),
        ("every single byte", (bytes([byte]) for byte in range(256))),
        ("every pair over one byte of each kind", every(KINDS, 2)),
        ("every string over `(` `)` `\"` `a` `#` `;` `1` space line-feed up to 4 bytes", up_to(letters(b'()"a#;1 \n'), 4)),
        ("every string over `(` `)` `\"` `a` space up to 5 bytes", up_to(letters(b'()"a '), 5)),
        ("`#` and every string over `b` `x` `0` `1` `2` `f` `g` space up to 4 bytes", (b"#" + rest for rest in up_to(letters(b"bx012fg "), 4))),
        ("symbols at the borders of UTF-8", utf8()),
        ("numerals around 2^64, 2^127, 2^128 and other borders", numerals()),
        ("`#b` by widths and borders", binaries()),
        ("`#x` by widths and borders", hexadecimals()),
        ("nestings and rows of growing size", deep()),
        ("the real replies of at most 2,000 bytes", middling),
        ("damaged copies of the smallest real replies, by the seed", damaged(rng, replies, 1100)),
        ("random rows of tokens, by the seed", soups(rng, 2500)),
    ]
