#!/usr/bin/env python3
"""Runs the bench, writes docs/BENCH.md and docs/bench.svg from what it measured, and prints the tables; on another machine than
x86-64 docs/BENCH-MACHINE.md and docs/bench-MACHINE.svg.

Usage: run.py [quick]
`quick` is a short run: it prints its tables and writes nothing, so that no rough number stands in docs/.
Needs the program that `make -C oracle bench` builds; `make bench` does both.
"""

import platform
import subprocess
import sys
from pathlib import Path

sys.dont_write_bytecode = True

import machine
import plot
import report

ROOT = Path(__file__).resolve().parents[2]
PROGRAM = ROOT / "target" / "oracle" / "bench" / "release" / "oracle"
# The crate drops a deep tree by recursion: room that is asked for, not memory that is used.
STACK = str(4 << 30)


def measured(quick):
    """The lines of the program, each a list of fields; shown on standard error as they come."""
    # Names as seen from the project's folder, so that none of them holds a machine's path.
    names = sorted(str(path.relative_to(ROOT)) for path in (ROOT / "vectors" / "replies").rglob("*.model.txt"))
    command = [str(PROGRAM), "bench", STACK] + (["quick"] if quick else [])
    with subprocess.Popen(command, cwd=ROOT, stdin=subprocess.PIPE, stdout=subprocess.PIPE, text=True) as program:
        program.stdin.write("".join(name + "\n" for name in names))
        program.stdin.close()
        lines = []
        for line in program.stdout:
            lines.append(line.rstrip("\n").split("\t"))
            print(f"measured: {lines[-1][0]}, {lines[-1][1]}", file=sys.stderr)
    if program.returncode != 0:
        sys.exit(f"{PROGRAM.name} ended with {program.returncode}")
    return lines


def main():
    if sys.argv[1:] not in ([], ["quick"]):
        sys.exit(__doc__)
    quick = sys.argv[1:] == ["quick"]
    results = report.Results(measured(quick))
    suffix = "" if platform.machine() == "x86_64" else "-" + platform.machine()
    text = report.document(results, machine.kind(), f"bench{suffix}.svg")
    print(text)
    if not quick:
        (ROOT / "docs" / f"BENCH{suffix}.md").write_text(text, encoding="utf-8")
        (ROOT / "docs" / f"bench{suffix}.svg").write_text(plot.drawing(results), encoding="utf-8")


if __name__ == "__main__":
    main()
