"""Operators in literals: their meaning by document 02's R-2, on values whose sorts fit; and what the crate works out of them as literals,
where document 01 says 22 (S1 of docs/DIFFERENCES.md).

An operand has a sort and a text; an answer is one of the operands, or a truth value.
"""

from value import BOOL, known

TRUE, FALSE = (BOOL, "true"), (BOOL, "false")


class Beyond(Exception):
    """What is not followed: terms that are no literals, an assertion that fails, addresses."""


def signed(value):
    """The number of a vector."""
    if value.sort[0] != "bitvec":
        raise Beyond
    number, width = int(value.text.split(":")[1], 16), value.sort[1]
    return number - 2 ** width if number >> (width - 1) else number


def passes(value, number):
    """Whether a number is beyond what a vector of that width holds."""
    past = 2 ** (value.sort[1] - 1)
    return not -past <= number < past


def is_true(value):
    return value.text == "true"


# R-2's meanings, by name.
MEANINGS = {
    b"not": lambda value: not is_true(value),
    b"or": lambda one, other: is_true(one) or is_true(other),
    b"=": lambda one, other: one.text == other.text,
    b"ite": lambda condition, one, other: one if is_true(condition) else other,
    b"bvnego": lambda value: passes(value, -signed(value)),
    b"bvsaddo": lambda one, other: passes(one, signed(one) + signed(other)),
    b"bvsmulo": lambda one, other: passes(one, signed(one) * signed(other)),
}


def fitting(name, sorts):
    """Whether the operands' sorts are ones that R-2 works on."""
    if name in (b"not", b"or"):
        return all(sort == BOOL for sort in sorts)
    if name == b"ite":
        return sorts[0] == BOOL and sorts[1] == sorts[2]
    return all(sort == sorts[0] for sort in sorts) and (name == b"=" or sorts[0][0] == "bitvec")


def opposite(value):
    if known(value) not in (TRUE, FALSE):
        raise Beyond
    return known(value) == FALSE


def either(one, other):
    """Equal operands come back as they are, whatever their sort."""
    if known(one) == known(other) or known(other) == FALSE:
        return one
    if known(one) == FALSE:
        return other
    if TRUE in (known(one), known(other)):
        return True
    raise Beyond


def chosen(condition, one, other):
    if known(condition) == TRUE or known(one) == known(other):
        return one
    if known(condition) == FALSE:
        return other
    raise Beyond


def together(work):
    """An operator on two vectors of one width."""
    def worked(one, other):
        numbers = signed(one), signed(other)
        if one.sort != other.sort:
            raise Beyond
        return passes(one, work(*numbers))
    return worked


def address(*_parts):
    raise Beyond


# By name and number of parts, the name counted.
OPERATORS = {
    (b"not", 2): opposite,
    (b"or", 3): either,
    (b"=", 3): lambda one, other: known(one) == known(other),
    (b"ite", 4): chosen,
    (b"bvnego", 2): lambda value: passes(value, -signed(value)),
    (b"bvsaddo", 3): together(int.__add__),
    (b"bvsmulo", 3): together(int.__mul__),
    (b"V4", 3): address,
    (b"V6", 3): address,
}
