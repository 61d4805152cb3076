"""What the crate makes of operators whose operands' sorts do not fit, or are no literals (D9 of docs/DIFFERENCES.md): the arms of its
factory, on decoded values.

A term that is no literal has the oracle's word `!term` for its text, and behind it which one it is (value.py).
"""

from hashlib import sha256

from operators import FALSE, TRUE, passes, signed
from value import BOOL, Value, known, some, truth


class Panicked(Exception):
    """An assertion of the factory's that fails."""

    def __init__(self):
        super().__init__("panicked=assertion failed: bv1.width() == bv2.width()")


def term(name, sort, *parts):
    """An application that stays one."""
    text = "!term#" + sha256(repr((name, *map(known, parts))).encode()).hexdigest()
    return Value(sort, text, text, made=(name, *parts))


def is_literal(value):
    return "!" not in value.text


def is_vector(value):
    return value.sort[0] == "bitvec" and is_literal(value)


def is_made(value, name):
    return value.made is not None and value.made[0] == name


def opposite(value):
    if known(value) in (TRUE, FALSE):
        return truth(known(value) == FALSE)
    return value.made[1] if is_made(value, "not") else term("not", BOOL, value)


def opposites(one, other):
    """The second is looked at first."""
    if is_made(other, "not"):
        return known(one) == known(other.made[1])
    return is_made(one, "not") and known(one.made[1]) == known(other)


def joined(name, neutral, deciding):
    """`or`, and `and` as `ite` makes it: equal operands come back as they are, whatever their sort."""
    def join(one, other):
        if known(one) == known(other) or known(other) == neutral:
            return one
        if known(one) == neutral:
            return other
        if deciding in (known(one), known(other)) or opposites(one, other):
            return truth(deciding == TRUE)
        return term(name, BOOL, one, other)
    return join


either, both = joined("or", FALSE, TRUE), joined("and", TRUE, FALSE)


def equal(one, other):
    """Of two options their insides are compared."""
    if is_made(one, "some") and is_made(other, "some"):
        return same(one.made[1], other.made[1])
    if is_made(one, "some") and other.text == "none" or one.text == "none" and is_made(other, "some"):
        return truth(False)
    return same(one, other)


def same(one, other):
    if known(one) == known(other):
        return truth(True)
    if is_literal(one) and is_literal(other):
        return truth(False)
    for told, become in ((TRUE, lambda value: value), (FALSE, opposite)):
        if known(one) == told and other.sort == BOOL:
            return become(other)
        if known(other) == told and one.sort == BOOL:
            return become(one)
    return term("=", BOOL, one, other)


def chosen(condition, one, other):
    """Of two options one of their insides is chosen."""
    if is_made(one, "some") and is_made(other, "some"):
        return some(picked(condition, one.made[1], other.made[1]))
    return picked(condition, one, other)


def picked(condition, one, other):
    """Equal branches come back whatever the condition; beside a truth value a branch becomes a part of `and` or `or`."""
    if known(condition) == TRUE or known(one) == known(other):
        return one
    if known(condition) == FALSE:
        return other
    if (known(one), known(other)) == (TRUE, FALSE):
        return condition
    if (known(one), known(other)) == (FALSE, TRUE):
        return opposite(condition)
    if known(other) == FALSE:
        return both(condition, one)
    return either(condition, other) if known(one) == TRUE else term("ite", one.sort, condition, one, other)


def overflow(value):
    return truth(passes(value, -signed(value))) if is_vector(value) else term("bvnego", BOOL, value)


def together(name, work):
    """An operator on two vectors, whose widths are asserted to be equal."""
    def worked(one, other):
        if not (is_vector(one) and is_vector(other)):
            return term(name, BOOL, one, other)
        if one.sort != other.sort:
            raise Panicked
        return truth(passes(one, work(signed(one), signed(other))))
    return worked


FACTORY = {
    b"not": opposite, b"or": either, b"=": equal, b"ite": chosen, b"bvnego": overflow,
    b"bvsaddo": together("bvsaddo", int.__add__), b"bvsmulo": together("bvsmulo", int.__mul__),
}
