"""Cases of the program that replays listings, and what it prints, by the second reading of document 01.

A case is a letter, tables.txt and the reply in hexadecimal, `-` for an empty one, a space between two: `M` has the rooms of
program `modellist`, `L` larger ones; of these `N` lacks the nodes, `T` the text, `S` the bracket stack, `O` the output; `A` is the
walk over no tables, no words and no text. A small letter is of a reply to get-value, in the same rooms. The answer ends with an empty line.
"""

from typing import NamedTuple

import reading
import walk
from cases import tabling

LONGEST = 65_536


class Rooms(NamedTuple):
    nodes: int
    text: int
    out: int
    depth: int


LARGER = Rooms(16_384, 65_536, 65_536, 8_192)
ROOMS = {"M": Rooms(2_048, 65_536, 65_536, 4_096), "L": LARGER, "N": LARGER._replace(nodes=0), "T": LARGER._replace(text=0),
         "S": LARGER._replace(depth=0), "O": LARGER._replace(out=0)}
NO_WORDS = "A"


def case(rooms, tables, reply):
    return " ".join([rooms, *(part.hex() or "-" for part in (tables, reply))])


def parts(line):
    """The rooms' letter, the tables and the reply."""
    rooms, *fields = line.split(" ")
    return rooms, *(bytes.fromhex(field.strip("-")) for field in fields)


def fitting(number, need, room):
    if need > room:
        raise reading.Refused(number, need)


def walked(rooms, tables, reply, values=False, worked=False):
    """The walk, after everything that is refused before it."""
    if max(len(tables), len(reply)) > LONGEST:
        raise reading.Refused(9)
    try:
        tabling.check(tabling.parsed(tables))
    except tabling.Bad:
        raise reading.Refused(25) from None
    arena = reading.Arena(reply)
    fitting(10, len(arena.nodes), rooms.nodes)
    fitting(11, len(arena.text), rooms.text)
    fitting(12, arena.depth, rooms.depth)
    return walk.walked(tables, arena, values=values, worked=worked)


def printed(line, worked=False):
    """What is printed for a case; `worked` says whether operators are worked out, as document 02's R-2 has them."""
    letter, tables, reply = parts(line)
    try:
        if letter.upper() == NO_WORDS:
            raise reading.Refused(27)
        rooms = ROOMS[letter.upper()]
        found = walked(rooms, tables, reply, letter.islower(), worked)
        listing, need = (found.listing(kept).encode() for kept in (False, True))
        fitting(26, len(need), rooms.out)
    except reading.Refused as refusal:
        return b"refused=%d\ndetail=%d\n\n" % (refusal.number, refusal.detail)
    return listing + b"need=%d\nfull=%d\nshort=%d\n\n" % (len(need), len(listing), len(need))
