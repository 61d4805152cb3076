#!/usr/bin/env python3
"""tidy.py [--check] [FILE..]: shortens the functions' proofs (crates/*/proofs/FUNCTION/Answers.antt and Invariants.antt where no file is
named); they stay proofs.

1. An answer whose whole body is `search rules`, with no `unfolding` line, goes, for the check tries that by itself; not one that another
   answer of its file names. A file that is left with imports alone goes too. Imports that nothing uses any more are `rt tidy`'s.
2. Comments that point to a line of the code, `-- src/FILE:LINE:COL`, go: the next edit of the code makes them wrong.

With --check nothing is written, and the exit code is 1 where a file would change."""
import glob
import os
import re
import sys

# the goal's name twice, and no line that goes on with the body
ANSWER = re.compile(r"^pub (?P<n>\S+) : goal\.(?P=n)[ \t]*\n(?P=n)(?: [^\s=]+)* =\s+search rules[ \t]*(?:\n(?![ \t]+\S)\n*|\Z)", re.M)
PLACE = re.compile(r"^[ \t]*-- src/[^\s:]+:\d+:\d+(?:[^\d\n].*)?(?:\n|\Z)", re.M)
# what a file without an answer has
EMPTY = re.compile(r"(?:use [^\n]*(?:\n|\Z)|[ \t]*\n)*")


def without_answers(text):
    """The text without the answers that the check finds by itself, but for those that are named elsewhere in it."""
    at = 0
    while m := ANSWER.search(text, at):
        rest = text[:m.start()] + text[m.end():]
        if re.search(r"(?<![\w.'-])" + re.escape(m["n"]) + r"(?![\w'-])", rest):
            at = m.end()
        else:
            text, at = rest, m.start()
    return text


def tidy(text):
    """The text by both rules, or none where no answer is left of it."""
    new = without_answers(PLACE.sub("", text))
    if new == text:
        return text
    return None if EMPTY.fullmatch(new) else new.rstrip("\n") + "\n"


def main():
    check = "--check" in sys.argv[1:]
    places = [f"crates/*/proofs/*/**/{name}.antt" for name in ("Answers", "Invariants")]
    files = [a for a in sys.argv[1:] if a != "--check"] or sorted(f for place in places for f in glob.glob(place, recursive=True))
    changed = 0
    for path in files:
        with open(path, encoding="utf8") as f:
            old = f.read()
        new = tidy(old)
        if new == old:
            continue
        changed += 1
        if check:
            print("not tidy:", path)
        elif new is None:
            os.remove(path)
        else:
            with open(path, "w", encoding="utf8") as f:
                f.write(new)
    print(f"{len(files)} files, {changed} {'not tidy' if check else 'changed'}")
    sys.exit(1 if check and changed else 0)


main()
