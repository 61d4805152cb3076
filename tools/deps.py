#!/usr/bin/env python3
"""deps.py [--write]: what each crate of crates.txt names directly, in its code, its definitions and its proofs.

Fails where crates.txt names a crate that is not named there, or leaves one out, and where README's picture is not the one drawn from
it: each crate, the top one first, with an arrow to those that it stands on directly, reached by no longer way. --write sets both right."""
import glob
import re
import sys

KIT = ["io", "bytes"]
# Crates that reach into a value of a type which they do not name: `replay::number(..).low` is a field of words::Pair, the `why` of an
# `Err(why)` a refusal.
BY_TYPE = {"replay_lines": ["words"], "replay_trees": ["words"], "replay_listings": ["refusals"]}
START, END = "<!-- drawn by tools/deps.py -->", "<!-- end of the picture -->"
LINE = re.compile(r"^([a-z0-9_]+)(?: staticlib)?:([^#\n]*)(#.*)?$")


def named(crate, known):
    found, own = set(BY_TYPE.get(crate, [])), {crate}
    for path in glob.glob(f"crates/{crate}/**/*", recursive=True):
        if path.endswith((".rt", ".antt")) and "/out/" not in path:
            with open(path, encoding="utf8") as f:
                text = f.read()
            found |= set(re.findall(r"Rattle\.([a-z0-9_]+)\.", text))
            if path.endswith(".rt"):
                code = re.sub(r"//.*", "", text)
                found |= set(re.findall(r"(?<![\w:])([a-z0-9_]+)::", code))
                own |= set(re.findall(r"^\s*(?:pub )?mod (\w+);", code, re.M))
    return [d for d in known if d in found and d not in own]


def picture(crates, direct, reach):
    rows = []
    for c in reversed(crates):
        over = [d for d in direct[c] if d not in KIT and not any(d in reach.get(e, ()) for e in direct[c])]
        rows.append("    " + (c.ljust(16) + ("-> " + ", ".join(over) if over else "")).rstrip())
    return "\n\n" + "\n".join(rows) + "\n\n"


def main():
    with open("crates.txt", encoding="utf8") as f:
        lines = f.read().split("\n")
    crates = [m.group(1) for m in map(LINE.match, lines) if m]
    known = crates + KIT
    direct = {c: named(c, known) for c in crates}
    reach = {}
    for c in crates:
        below = set()
        for d in direct[c]:
            below |= {d} | reach.get(d, set())
        reach[c] = below
    wrong, out = 0, []
    for line in lines:
        m = LINE.match(line)
        if m and m.group(2).split() != direct[m.group(1)]:
            wrong += 1
            said, want = set(m.group(2).split()), set(direct[m.group(1)])
            print(m.group(1), "less:", " ".join(sorted(said - want)), "more:", " ".join(sorted(want - said)))
            line = (line.split(":")[0] + ": " + " ".join(direct[m.group(1)])).ljust(30).rstrip() + "  " + (m.group(3) or "")
        out.append(line)
    drawn = picture(crates, direct, reach)
    with open("README.md", encoding="utf8") as f:
        readme = f.read()
    head, _, rest = readme.partition(START)
    _, _, tail = rest.partition(END)
    if readme != head + START + drawn + END + tail:
        wrong += 1
        print("README's picture is another")
    if "--write" in sys.argv:
        with open("crates.txt", "w", encoding="utf8") as f:
            f.write("\n".join(out))
        with open("README.md", "w", encoding="utf8") as f:
            f.write(head + START + drawn + END + tail)
    print(len(crates), "crates,", sum(map(len, direct.values())), "names,", wrong, "lines", "set right" if "--write" in sys.argv else "wrong")
    sys.exit(1 if wrong and "--write" not in sys.argv else 0)


main()
