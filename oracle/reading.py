"""Document 01 read a second time, in Python, from its words alone: what it says of strings, trees and script lines.

It answers in the forms of the oracle's driver, so that compare.py can set the crate's answers beside it.
"""

LONGEST = 16_777_216
WHITE = b"\t\n\x0c\r "
ENDS_SYMBOL = b'();"#' + WHITE
HEX_DIGITS = b"0123456789abcdefABCDEF"
GREATEST_CODE_POINT = 0x2FFFF
WORD = 2 ** 64


class Refused(Exception):
    """A refusal by document 01's number, with its detail."""

    def __init__(self, number, detail=0):
        super().__init__(f"refused={number}")
        self.number, self.detail = number, detail


def code_point(value):
    """The character of a number; surrogates have none."""
    if 0xD800 <= value <= 0xDFFF:
        raise Refused(3)
    return chr(value)


def escape(raw, at):
    """The character of the escape at a backslash and the place after it, or None where it is no escape."""
    if raw[at + 1:at + 2] != b"u":
        return None
    if raw[at + 2:at + 3] == b"{":
        stop = at + 3
        while stop < len(raw) and stop < at + 9 and raw[stop] in HEX_DIGITS:
            stop += 1
        digits = raw[at + 3:stop]
        if not digits or raw[stop:stop + 1] != b"}" or int(digits, 16) > GREATEST_CODE_POINT:
            return None
        return code_point(int(digits, 16)), stop + 1
    digits = raw[at + 2:at + 6]
    if len(digits) < 4 or any(digit not in HEX_DIGITS for digit in digits):
        return None
    return code_point(int(digits, 16)), at + 6


def decoded(raw):
    """The text of a string literal's inside, in UTF-8."""
    out = []
    at = 0
    while at < len(raw):
        found = escape(raw, at) if raw[at] == 0x5C else None
        if found:
            out.append(found[0])
            at = found[1]
        else:
            out.append(chr(raw[at]))
            at += 2 if raw[at:at + 2] == b'""' else 1
    return "".join(out).encode("utf-8")


def run_end(raw, at, inside):
    """The first place from `at` on whose byte is not in `inside`."""
    while at < len(raw) and raw[at] in inside:
        at += 1
    return at


def number(digits, radix):
    """A number below 2^128."""
    if not digits or int(digits, radix) >= 2 ** 128:
        raise Refused(4)
    return int(digits, radix)


def bit_vector(raw, at):
    """The token at `#`: its four words and the place after it."""
    radix, bits, digits = {b"b": (2, 1, b"01"), b"x": (16, 4, HEX_DIGITS)}.get(raw[at + 1:at + 2], (0, 0, b""))
    if not radix:
        raise Refused(1)
    stop = run_end(raw, at + 2, digits)
    value = number(raw[at + 2:stop], radix)
    width = (stop - at - 2) * bits
    if width < 128 and value >> (width - 1):
        value += 2 ** 128 - 2 ** width
    return (1, width, value % WORD, value // WORD), stop


def string_end(raw, at):
    """The place of the quote that closes the string opened before `at`."""
    while True:
        at = raw.find(b'"', at)
        if at < 0:
            raise Refused(1)
        if raw[at + 1:at + 2] != b'"':
            return at
        at += 2


def symbol(raw, at):
    stop = at
    while stop < len(raw) and raw[stop] not in ENDS_SYMBOL:
        stop += 1
    try:
        raw[at:stop].decode("utf-8")
    except UnicodeDecodeError:
        raise Refused(2) from None
    return (4, raw[at:stop]), stop


def token(raw, at):
    """The token at a byte that is neither white space nor a comment, and the place after it."""
    byte = raw[at:at + 1]
    if byte in (b"(", b")"):
        return byte, at + 1
    if byte == b"#":
        return bit_vector(raw, at)
    if byte == b'"':
        stop = string_end(raw, at + 1)
        return (3, decoded(raw[at + 1:stop])), stop + 1
    if byte.isdigit():
        stop = run_end(raw, at, b"0123456789")
        value = number(raw[at:stop], 10)
        return (2, 0, value % WORD, value // WORD), stop
    return symbol(raw, at)


def tokens(raw):
    """Every token, before any bracket is looked at."""
    found = []
    at = 0
    while at < len(raw):
        if raw[at] in WHITE:
            at += 1
        elif raw[at] == 0x3B:
            line_feed = raw.find(b"\n", at)
            at = len(raw) if line_feed < 0 else line_feed
        else:
            one, at = token(raw, at)
            found.append(one)
    return found


class Arena:
    """Document 01's arena: nodes of four words, the text, and the greatest count of open brackets."""

    def __init__(self, raw):
        if len(raw) > LONGEST:
            raise Refused(9)
        self.nodes, self.text, self.depth = [], bytearray(), 0
        self.open = []
        found = tokens(raw)
        for place, one in enumerate(found):
            self.take(one)
            if not self.open:
                if place + 1 < len(found):
                    raise Refused(6)
                return
        raise Refused(1)

    def take(self, one):
        """One token of the bracket walk."""
        if one == b")":
            if not self.open:
                raise Refused(5)
            self.nodes[self.open.pop()][2] = len(self.nodes)
            return
        if self.open:
            self.nodes[self.open[-1]][1] += 1
        if one == b"(":
            self.open.append(len(self.nodes))
            self.depth = max(self.depth, len(self.open))
            self.nodes.append([5, 0, 0, 0])
        elif one[0] in (3, 4):
            self.nodes.append([one[0], len(one[1]), len(self.text), 0])
            self.text += one[1]
        else:
            self.nodes.append(list(one))


def answered(reading):
    """A reading's answer, or its refusal."""
    try:
        return reading()
    except Refused as refusal:
        return str(refusal)


def strings(line):
    return answered(lambda: "text=" + decoded(bytes.fromhex(line)).hex())


def trees(line):
    def reading():
        arena = Arena(bytes.fromhex(line))
        nodes = ";".join(",".join(f"{word:x}" for word in node) for node in arena.nodes)
        return f"nodes={nodes} text={arena.text.hex()} depth={arena.depth:x}"
    return answered(reading)


def datatype(name, parameters, constructors):
    inside = b"\n  " + b"\n  ".join(constructors)
    joined = b" ".join(parameters)
    if joined:
        return b"(declare-datatype %s (par (%s) (%s)))" % (name, joined, inside)
    return b"(declare-datatype %s (%s))" % (name, inside)


def pairs(parts):
    return b" ".join(b"(%s %s)" % pair for pair in zip(parts[::2], parts[1::2]))


FORMS = {
    "1": lambda logic: b"(set-logic %s)" % logic,
    "2": lambda option, value: b"(set-option :%s %s)" % (option, value),
    "3": lambda comment: b"; " + comment.replace(b"\n", b" "),
    "4": lambda term: b"(assert %s)" % term,
    "5": lambda name, args, sort, term: b"(define-fun %s (%s) %s %s)" % (name, pairs(args), sort, term),
    "6": lambda name, sort: b"(declare-const %s %s)" % (name, sort),
    "7": lambda name, args, sort: b"(declare-fun %s (%s) %s)" % (name, b" ".join(args), sort),
    "8": datatype,
    "9": lambda: b"(check-sat)",
    "a": lambda: b"(get-model)",
    "b": lambda: b"(reset)",
    "c": lambda: b"(exit)",
}
LISTS = {"5": [1], "7": [1], "8": [1, 2]}


def lines(line):
    form, *fields = line.split(" ")
    parts = [[bytes.fromhex(part) for part in field.split(",")[:-1]] if place in LISTS.get(form, [])
             else bytes.fromhex(field) for place, field in enumerate(fields)]
    return "line=" + (FORMS[form](*parts) + b"\n").hex()
