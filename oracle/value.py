"""A decoded value of the second reading (walk.py): its sort and its text."""

import re
from typing import NamedTuple, Optional

BOOL = ("bool",)
# A term of the crate's that is no literal: the oracle's word for it, and which one it is, for equal ones are one.
TERM = re.compile("!term#[0-9a-f]+")


class Value(NamedTuple):
    """A value's sort and text; `kept` is the text with repeated members kept, `members` a set's members as they are written, `made` an
    option's or a negation's word and inside, where the crate looks into them."""

    sort: tuple
    text: str
    kept: str
    members: Optional[tuple] = None
    made: Optional[tuple] = None

    def told(self, kept):
        return self.kept if kept else self.text


def plain(sort, text):
    """A value without members inside it."""
    return Value(sort, text, text)


def truth(told):
    return plain(BOOL, "true" if told else "false")


def some(value):
    """The option that holds a value."""
    return Value(("option", value.sort), f"some({value.text})", f"some({value.kept})", made=("some", value))


def known(value):
    """Literals of one sort with one text are one literal."""
    return value.sort, value.text


def shown(text):
    """A text as the oracle tells it."""
    return TERM.sub("!term", text) if "!" in text else text


def in_order(text):
    """What a listing orders texts by."""
    return shown(text).encode()
