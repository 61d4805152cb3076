#!/usr/bin/env python3
"""Copies the crate's text from docs/src into the oracle's build folder and applies the table of edits.

Usage: prepare.py BUILD_FOLDER
Fails, and builds nothing, where a text that an edit names does not stand in its file exactly once.
"""

import shutil
import sys
from pathlib import Path

from edits import EDITS, Swap

HERE = Path(__file__).resolve().parent
CRATE = HERE.parent / "docs" / "src" / "src"


def place(text, wanted, where):
    """The one place of `wanted` in `text`."""
    found = text.count(wanted)
    if found != 1:
        sys.exit(f"{where}: found {found} times instead of once: {wanted!r}")
    return text.index(wanted)


def applied(text, edit, where):
    """The text after one edit."""
    if isinstance(edit, Swap):
        at = place(text, edit.old, where)
        return text[:at] + edit.new + text[at + len(edit.old):]
    first = place(text, edit.first, where)
    stop = len(text) if edit.stop is None else place(text, edit.stop, where)
    if stop < first:
        sys.exit(f"{where}: the cut would end before it begins: {edit.first!r}")
    return text[:first] + edit.left + text[stop:]


def edited(name):
    """A file of the crate with all of its edits."""
    text = (CRATE / name).read_text(encoding="utf-8")
    for edit in EDITS[name]:
        text = applied(text, edit, name)
    return text


def main():
    if len(sys.argv) != 2:
        sys.exit(__doc__)
    build = Path(sys.argv[1])
    for part in ("package", "stand-ins"):
        # Taken away first, so that a file dropped from the table does not linger.
        shutil.rmtree(build / part, ignore_errors=True)
        shutil.copytree(HERE / part, build / part)
    for name in EDITS:
        target = build / "package" / "src" / name
        target.parent.mkdir(parents=True, exist_ok=True)
        target.write_text(edited(name), encoding="utf-8")


if __name__ == "__main__":
    main()
