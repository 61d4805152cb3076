"""Cases for the twelve script lines: the form's number and its parts, as the oracle's driver reads them."""

TEXTS = [b"", b"a", b"QF_ALL", b"x\ny", b"\n", b"\r\n", b"\n\n\n", b" ", b"(and a b)", b"\xc3\xa9\n\xe2\x82\xac", b'"s"', b"; c", b"\t\x00\x7f"]
LISTS = [[], [b""], [b"", b""], [b"", b"", b""], [b"a"], [b"a", b"b"], [b"a", b""], [b"", b"a"], [b"(none)", b"(some (val X))"],
         [b"x", b"Bool", b"y", b"(_ BitVec 8)"], [b"\n", b" "], [b"\xc3\xa9", b"", b"z"], [b"X"] * 40]
TEXT_FORMS = {"1": 1, "2": 2, "3": 1, "4": 1, "6": 2}
BARE_FORMS = "9abc"


def text(part):
    return part.hex()


def several(parts):
    return "".join(part.hex() + "," for part in parts)


def texts(form, count):
    """Each text alone, or each pair of texts."""
    if count == 1:
        return (f"{form} {text(one)}" for one in TEXTS)
    return (f"{form} {text(one)} {text(other)}" for one in TEXTS for other in TEXTS)


def lists():
    """Each list with some texts around it; define-fun takes its arguments in pairs."""
    for name, last in ((b"f", b"Bool"), (b"", b""), (b"g\n", b"(Set E0)")):
        for parts in LISTS:
            if len(parts) % 2 == 0:
                yield f"5 {text(name)} {several(parts)} {text(last)} {text(b'true')}"
            yield f"7 {text(name)} {several(parts)} {text(last)}"
            yield from (f"8 {text(name)} {several(parts)} {several(others)}" for others in LISTS)


def random_ones(rng, count):
    """Random parts for every form with parts."""
    def part():
        return rng.choice([b"", b"a", b"t%d" % rng.randrange(99), bytes(rng.randrange(128) for _ in range(rng.randrange(12)))])

    def parts(even):
        count = rng.randrange(6)
        return [part() for _ in range(count - count % 2 if even else count)]
    for _ in range(count):
        form = rng.choice("12345678")
        if form in TEXT_FORMS:
            yield " ".join([form, *(text(part()) for _ in range(TEXT_FORMS[form]))])
        elif form == "5":
            yield f"5 {text(part())} {several(parts(True))} {text(part())} {text(part())}"
        elif form == "7":
            yield f"7 {text(part())} {several(parts(False))} {text(part())}"
        else:
            yield f"8 {text(part())} {several(parts(False))} {several(parts(False))}"


def ranges(rng):
    """Where each range of the list comes from, and its cases."""
    return [
        ("the four forms without parts", iter(BARE_FORMS)),
        ("the five forms of one or two texts, each text and pair", (case for form, count in TEXT_FORMS.items() for case in texts(form, count))),
        ("the three forms with lists, each list and pair of lists", lists()),
        ("random parts, by the seed", random_ones(rng, 400)),
    ]
