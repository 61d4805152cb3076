"""The calls of docs/REFUSALS.md, read out of its tables: for each number the smallest call that gives it, of a model and of a reply to
get-value.

A call is told by what is given, `tables` and `reply` with their lines or bytes in backquotes, and by what is not lent.
"""

import re
import sys
from pathlib import Path

from cases import listed

PAGE = Path(__file__).resolve().parent.parent.parent / "docs" / "REFUSALS.md"
ROW = re.compile(r"\| (\d+) \| \w+ \| .* \| (.*) \| .* \|")
# A row of the second table, and the number that only a function's body gives.
GIVEN_ROW = re.compile(r"^\| (\d+) \| [^|]* \| ([^|]*) \|$", re.MULTILINE)
OF_BODIES = 21
# What is said of a reply that is not written out.
SAID = {"reply of no bytes": b"", "reply of the byte FF": b"\xff", "reply of 65,537 bytes 0": bytes(65_537)}
LACKING = {"no nodes": "N", "no text bytes": "T", "no stack": "S", "no output bytes": "O", "no words": "A"}
LEVELS = 1_024


def quoted(said):
    return re.findall(r"`([^`]*)`", said)


def call(said):
    """The case that a cell of the table tells."""
    given = dict.fromkeys(("tables", "reply"), b"")
    for part in said.split("; "):
        if part.startswith("tables"):
            given["tables"] = "".join(line + "\n" for line in quoted(part)).encode()
        elif part in SAID:
            given["reply"] = SAID[part]
        elif part.startswith("reply"):
            given["reply"] = quoted(part)[0].replace("(Option .. )", "(Option " * LEVELS + "Bool" + ")" * LEVELS).encode()
    letter = next((letter for lack, letter in LACKING.items() if lack in said), "L" if ".." in said else "M")
    return listed.case(letter, given["tables"], given["reply"])


def rows(row):
    """Each number with its detail, and its call."""
    for number, said in row.findall(PAGE.read_text()):
        detail = re.search(r"detail (\d+)", said)
        yield (int(number), int(detail[1]) if detail else 0), call(said)


def seen(found, numbers):
    """The calls, each seen to give its number and detail."""
    if [number for (number, _), _ in found] != numbers:
        sys.exit("docs/REFUSALS.md has not the numbers 1 to 28 in order")
    for answer, case in found:
        if listed.printed(case) != b"refused=%d\ndetail=%d\n\n" % answer:
            sys.exit(f"docs/REFUSALS.md: the call for {answer[0]} gives something else")
    return [case for _, case in found]


def cases():
    return seen(list(rows(ROW)), list(range(1, 29)))


def given_cases():
    """Those of replies to get-value, by the small letters."""
    found = [(answer, case[0].lower() + case[1:]) for answer, case in rows(GIVEN_ROW)]
    return seen(found, [number for number in range(1, 29) if number != OF_BODIES])
