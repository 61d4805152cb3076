#!/usr/bin/env python3
"""times.py LOG [MEMORY [SECONDS]]: a table like that of docs/CHECK-TIMES.md, of the crates that the gate proved in LOG and of their edits
that it refused there.

The gate prints no times today. MEMORY is a JSON file of the greatest resident kilobytes of the prover by crate, SECONDS one of the
seconds of a check from nothing (the first line of tools/profile.py has them), where someone has looked; a cell is empty where not. A
crate or an edit that an earlier run did and the log names as kept counts among the last line's kept ones."""
import glob
import json
import re
import sys

PROVED = re.compile(r"^rt: (\w+) proved$", re.M)
KEPT = re.compile(r"^rt: (\w+) is kept: an earlier run ", re.M)
REFUSED = re.compile(r"^rt: must-fail (\w+)/[\w.-]+\.edit: refused, as it must be", re.M)
# of a crate's edits, how many an earlier run tried
EARLIER = re.compile(r"^rt: (\w+): (\d+) of its \d+ must-fail edits were tried by an earlier run ", re.M)


def lines(*patterns):
    paths = {p for pattern in patterns for p in glob.glob(pattern, recursive=True)}
    return sum(len(open(p, encoding="utf8").readlines()) for p in paths)


def figures(place):
    if len(sys.argv) <= place:
        return {}
    with open(sys.argv[place], encoding="utf8") as f:
        return json.load(f)


def main():
    if len(sys.argv) < 2:
        sys.exit(__doc__)
    with open(sys.argv[1], encoding="utf8", errors="replace") as f:
        log = f.read()
    memory, seconds, edits = figures(2), figures(3), {}
    for crate in REFUSED.findall(log):
        edits[crate] = edits.get(crate, 0) + 1
    proved, kept = PROVED.findall(log), KEPT.findall(log)
    if not proved + kept:
        sys.exit(f"times.py: {sys.argv[1]} names no crate as proved: is it what `rt ci` printed?")
    print("| crate | seconds | MB | code | specs | laws | functions' proofs | edits |\n|---|---|---|---|---|---|---|---|")
    for crate in proved + kept:
        base = f"crates/{crate}/"
        proofs = lines(base + "proofs/*/**/*.antt")
        laws = lines(base + "proofs/*.antt")
        cells = [crate, seconds.get(crate, ""), memory.get(crate, 0) // 1024 or "", lines(base + "src/**/*.rt"), lines(base + "specs/**/*.antt"), laws, proofs, edits.get(crate, 0)]
        print("| " + " | ".join(map(str, cells)) + " |")
    earlier = sum(int(count) for _, count in EARLIER.findall(log))
    print(f"\n{len(proved)} crates proved and {len(kept)} kept; {sum(edits.values())} edits refused, {earlier} of them kept; {sum(seconds.get(c, 0) for c in proved + kept)} s of those checks that were timed.")


main()
