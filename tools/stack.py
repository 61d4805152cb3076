#!/usr/bin/env python3
"""How much of the stack listing takes: the models that docs/DECISIONS.md names, through tools/stack.c (`make stack` builds it).

Usage: stack.py PROGRAM
"""

import subprocess
import sys
import tempfile
from pathlib import Path

ROOT = Path(__file__).resolve().parent.parent
LEVELS = 1_023


def nested(sort, value):
    """Rows, a sort and a value, each inside the other LEVELS times."""
    rows = "sort=bool\n" + "".join(f"sort={sort.lower()} {row}\n" for row in range(LEVELS))
    return rows, f"({sort} " * LEVELS + "Bool" + ")" * LEVELS, f"({value} " * LEVELS + "true" + ")" * LEVELS


def variable(sort, value):
    rows, sort, value = nested(sort, value)
    return f"{rows}var=x {LEVELS}\n", f"((define-fun x () {sort} {value}))"


def function():
    rows, sort, value = nested("Set", "set.singleton")
    return (f"{rows}fun=f {LEVELS} {LEVELS}\n",
            f"((define-fun f ((a {sort})) {sort} (ite (= a {value}) {value} {value})))")


def arms(count):
    body = "".join(f"(ite (= a #x{key * 2_654_435_761 % 2 ** 32:08x}) true " for key in range(count)) + "false" + ")" * count
    return "sort=bool\nsort=bitvec 32\nfun=f 1 0\n", f"((define-fun f ((a (_ BitVec 32))) Bool {body}))"


def union(members):
    half = len(members) // 2
    return f"(set.union {union(members[:half])} {union(members[half:])})" if half else f"(set.singleton #x{members[0]:08x})"


def members(count):
    keys = [key * 2_654_435_761 % 2 ** 32 for key in range(count)]
    return "sort=bitvec 32\nsort=set 0\nvar=x 1\n", f"((define-fun x () (Set (_ BitVec 32)) {union(keys)}))"


def sample():
    folder = ROOT / "crates" / "modellist"
    return (folder / "data" / "tables.txt").read_text(), (folder / "stdin").read_text()


MODELS = {
    "document 01's sample": sample(),
    "100,000 arms": arms(100_000),
    "100,000 members": members(100_000),
    "1,023 nested options": variable("Option", "some"),
    "1,023 nested sets": variable("Set", "set.singleton"),
    "1,023 nested sets as a key, a value and a default": function(),
}


def main(program):
    with tempfile.TemporaryDirectory() as folder:
        for name, texts in MODELS.items():
            files = [Path(folder) / part for part in ("tables", "reply")]
            for file, text in zip(files, texts):
                file.write_text(text)
            found = subprocess.run([program, *files], capture_output=True, text=True, check=True)
            print(f"{name}: {found.stderr.splitlines()[-1]}; {found.stdout.splitlines()[0]}")


if __name__ == "__main__":
    main(sys.argv[1])
