#!/usr/bin/env python3
"""Checks every row of docs/DIFFERENCES.md that gives an input: the crate's answer by asking the oracle, document 01's
by the second reading (reading.py, walk.py).

Usage: confirm.py [DOCUMENT [worked]]     (with `worked` document 02's R-2 is read too)
A row is `| number | what | tables | input | document 01 | crate | why |`; in a cell `\\|` is a bar. The number's
letter says what the input is: D, S and E models with tables, T trees, C strings (direct calls), L script lines.
An input stands between backticks; in those of T, C and L a backslash with `x` and two digits is that byte.
"""

import re
import sys

sys.dont_write_bytecode = True
import reading  # noqa: E402
import walk  # noqa: E402
from asking import ROOT, answers, with_room  # noqa: E402

sys.path.append(str(ROOT / "vectors"))
from cases.listings import tables  # noqa: E402

KINDS = {"D": "listings", "S": "listings", "E": "listings", "T": "trees", "C": "strings", "L": "lines"}
READERS = {"trees": reading.trees, "strings": reading.strings, "lines": reading.lines}
SHORT = ("value=", "when=", "then=", "else=")


def cells(line):
    return [cell.strip().replace("\\|", "|") for cell in re.split(r"(?<!\\)\|", line.strip())[1:-1]]


def rows(text):
    """The rows with an input."""
    found = [cells(line) for line in text.split("\n") if re.match(r"\| [DSETCL]\d+[a-z]? \|", line)]
    return [row for row in found if len(row) == 7 and row[3].startswith("`")]


def raw(text):
    """The bytes of an input between backticks."""
    return re.sub(rb"\\x([0-9a-f]{2})", lambda found: bytes.fromhex(found[1].decode()), text.strip("`").encode())


def case(row):
    """The oracle's case of a row."""
    mode = KINDS[row[0][0]]
    if mode == "listings":
        return f"{tables(row[2]).encode().hex()} {row[3].strip('`').encode().hex()}"
    return row[3].strip("`") if mode == "lines" else raw(row[3]).hex()


def short(answer):
    """An answer as the document writes it: a bare number, a listing's values, a line as text, else the answer itself."""
    name, _, rest = answer.partition("=")
    if name == "refused":
        return rest
    if name == "listing":
        lines = bytes.fromhex(rest).decode().split("\n")[:-1]
        return " ".join([line for line in lines if line.startswith(SHORT)] or lines)
    return repr(bytes.fromhex(rest))[2:-1] if name == "line" else answer


def by_document(mode, one, worked):
    """The second reading's answer to a case."""
    return walk.listings(one, worked=worked) if mode == "listings" else READERS[mode](one)


def main():
    worked = sys.argv[2:] == ["worked"]
    document = sys.argv[1] if len(sys.argv) > 1 else ROOT / "docs" / "DIFFERENCES.md"
    found = rows(open(document, encoding="utf-8").read())
    faults = 0
    for row in found:
        mode, one = KINDS[row[0][0]], case(row)
        said = [cell.strip("`") for cell in row[4:6]]
        seen = [short(by_document(mode, one, worked)), short(answers(mode, [one])[0])]
        for who, wrote, got in zip(("document 01", "the crate"), said, seen):
            if wrote != got:
                print(f"{row[0]}: the document says of {who}: {wrote}; found: {got}")
                faults += 1
    print(f"{len(found)} rows, {faults} wrong")
    # A document without rows would confirm nothing.
    return 1 if faults or not found else 0


if __name__ == "__main__":
    with_room(main)
