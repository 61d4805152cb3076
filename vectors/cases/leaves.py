"""Cases for the leaves with answers of their own: from RFC 3629, document 01 and Python's numbers, with no Rust at hand.

A case is a capital letter that names the function, and its fields in hexadecimal (crates/replay_leaves/src/cases.rt).
"""

import reading
from cases.common import around

FULL = 2 ** 128
MARK = 0xEE

# RFC 3629, section 4: the rows of UTF-8 byte sequences, as ranges of bytes.
TAIL = (0x80, 0xBF)
ROWS = [
    [(0x00, 0x7F)], [(0xC2, 0xDF), TAIL],
    [(0xE0, 0xE0), (0xA0, 0xBF), TAIL], [(0xE1, 0xEC), TAIL, TAIL], [(0xED, 0xED), (0x80, 0x9F), TAIL], [(0xEE, 0xEF), TAIL, TAIL],
    [(0xF0, 0xF0), (0x90, 0xBF), TAIL, TAIL], [(0xF1, 0xF3), TAIL, TAIL, TAIL], [(0xF4, 0xF4), (0x80, 0x8F), TAIL, TAIL],
]
# RFC 3629, section 7: its examples.
RFC_EXAMPLES = ["41E289A2CE912E", "ED959CEAB5ADEC96B4", "E697A5E69CACE8AA9E", "EFBBBFF0A38EB4"]

POINTS = around(0x0, 0x7F, 0x80, 0x7FF, 0x800, 0xFFF, 0x1000, 0xD7FF, 0xD800, 0xDFFF, 0xE000, 0xFFFF, 0x10000, 0x2FFFF,
                0x3FFFF, 0x10FFFF, 0x110000, 2 ** 31, 2 ** 32 - 2)
NUMBERS = [number for number in around(0, 9, 10, 255, 256, 2 ** 32, 2 ** 63, 2 ** 64, 2 ** 65, 2 ** 127, FULL - 1) if number < FULL]
WIDTHS = [0, 1, 2, 4, 8, 32, 62, 63, 64, 65, 66, 96, 126, 127, 128, 129, 67_108_864, 2 ** 64 - 1]
STRINGS = [b"", b"a", b"ab", b"\\u{41}", b"\\u{000041}", b"\\u{0000041}", b'""', b'"', b"\xff", b"\\ud800", b"\\u{dfff}", b"\\u{2ffff}",
           b"\\u{30000}", b"\xff" * 20, b"a\\ue000b"]


def edges(row):
    """A row with each of its bytes at, below and above both ends, the others at their least."""
    least = [low for low, _ in row]
    for at, ends in enumerate(row):
        for byte in around(*ends):
            if byte < 256:
                yield bytes(least[:at] + [byte] + least[at + 1:])


def octets():
    """Every byte, the edges of every row, each row cut short, run on and doubled, and the RFC's examples."""
    yield from (bytes([byte]) for byte in range(256))
    yield b""
    for row in ROWS:
        yield from edges(row)
        whole = bytes(low for low, _ in row)
        yield from (whole[:count] for count in range(len(row)))
        yield from (whole[:count] + b"A" for count in range(len(row)))
        yield from (whole + b"\x80", whole + whole, b"A" + whole + b"z")
    yield from (bytes.fromhex(example) for example in RFC_EXAMPLES)


def is_utf8(raw):
    try:
        raw.decode("utf-8", "strict")
    except UnicodeDecodeError:
        return "no"
    return "yes"


def encoding(point):
    """Python encodes the same code points as RFC 3629, section 3: surrogates and those above 10FFFF have none."""
    if 0xD800 <= point <= 0xDFFF or point > 0x10FFFF:
        return "bytes="
    return "bytes=" + chr(point).encode("utf-8").hex()


def runs(radix):
    """Digit runs of one radix: short ones, numbers at the borders with and without leading zeros, bytes that are no digits."""
    digits = {2: "{:b}", 10: "{:d}", 16: "{:x}"}[radix]
    yield from ("", "0", "00", "1", "+1", "-1", " 1", "1 ", "_", "0x1", "2", "9", "a", "F", "g", "G", "@", "`", "/", ":", "\x00", "\xff")
    for number in NUMBERS + [FULL, FULL + 1, FULL * radix, FULL * radix - 1]:
        text = digits.format(number)
        yield from (text, text.upper(), "0" * 40 + text, text + "g", "g" + text, text + "/", text + "\x7f")


def parsed(text, radix):
    """The number of a run, by Python's own reading once every byte is known to be a digit."""
    allowed = {2: "01", 10: "0123456789", 16: "0123456789abcdefABCDEF"}[radix]
    if not text or any(letter not in allowed for letter in text) or int(text, radix) >= FULL:
        return "refused=4"
    return shown(int(text, radix))


def shown(number):
    return f"number={number:032x}"


def extended(width, number):
    """As the Rust writes it: a set sign bit, and ones above the width."""
    if width != 0 and width < 128 and (1 << (width - 1)) & number != 0:
        return shown((((FULL - 1) << width) % FULL) | number)
    return shown(number)


def signed(number):
    low = number % 2 ** 64
    return str(low if low < 2 ** 63 else low - 2 ** 64)


def ordered(left, right):
    """The first number is handed on behind the answer."""
    return f"{'less' if left < right else 'more' if right < left else 'same'} {left:032x}"


def in_room(raw, room):
    """decode_string into a marked buffer of its own size: the answer, and every byte that was lent."""
    buffer = bytes([MARK]) * room
    try:
        text = reading.decoded(raw)
    except reading.Refused as refusal:
        return f"{refusal} detail=0 buffer={buffer.hex()}"
    if len(text) > room:
        return f"refused=11 detail={len(text)} buffer={buffer.hex()}"
    return f"length={len(text)} buffer={(text + buffer[len(text):]).hex()}"


def rooms(raw):
    """Rooms around the need, and none."""
    try:
        need = len(reading.decoded(raw))
    except reading.Refused:
        need = 4
    return around(need, 0)


def ranges():
    """Where each range comes from, and its pairs of case and answer."""
    return [
        ("RFC 3629, section 4: every byte, each row's edges, cut short and run on; section 7's examples; Python's decoder answers",
         [(f"U {raw.hex()}", is_utf8(raw)) for raw in octets()]),
        ("RFC 3629, section 3: code points at the borders; Python's encoder answers",
         [(f"E {point:x}", encoding(point)) for point in POINTS]),
        ("document 01, \"Bytes to tokens\": runs of digits in radix 2, 10 and 16; Python's numbers answer",
         [(f"{letter} {text.encode('latin-1').hex()}", parsed(text, radix)) for letter, radix in (("B", 2), ("D", 10), ("X", 16))
          for text in runs(radix)]),
        ("document 01, sign extension: widths and numbers at the borders; the Rust's expression in Python's numbers answers",
         [(f"S {width:x} {number:x}", extended(width, number)) for width in WIDTHS for number in NUMBERS]),
        ("the order of two numbers of 128 bits",
         [(f"C {left:x} {right:x}", ordered(left, right)) for left in NUMBERS[::3] for right in NUMBERS[::2]]),
        ("a number of 128 bits against a power of two",
         [(f"W {width:x} {number:x}", "yes" if number >> width else "no") for width in WIDTHS[:-2] for number in NUMBERS]),
        ("the low word as signed, and a word, in decimal",
         [(f"{letter} {number:x}", text(number)) for letter, text in (("I", signed), ("N", lambda number: str(number % 2 ** 64)))
          for number in NUMBERS]),
        ("document 01's string samples with rooms around their need, every lent byte shown; its second reading answers",
         [(f"T {room:x} {raw.hex()}", in_room(raw, room)) for raw in STRINGS for room in rooms(raw)]),
    ]
