#!/usr/bin/env python3
"""links.py: checks that the links of the project's papers point to files, and that docs/TRACE.md names what stands there.

1. Every relative link in README.md, CONTRIBUTING.md, docs/ and the READMEs of oracle, vectors and bindings points to a file.
2. In docs/TRACE.md each name in backticks right after a link to code, definitions or proofs is declared in that file.
3. There each law cell but "–" names a law after a link into proofs/ or specs/, and each contract cell but "–" has a link.

Run from the project's root. Prints each fault as FILE:LINE: WHAT and ends with 1, or prints one line with counts."""
import glob
import os
import re
import sys

PAPERS = ["README.md", "CONTRIBUTING.md", "docs/*.md", "oracle/README.md", "vectors/README.md", "bindings/rust/README.md"]
LINK = re.compile(r"\]\(([^)\s]+)\)")
# a link and the names after it; between two of them a comma, dots or "and" may stand
NAMED = re.compile(r"\]\(([^)\s]+\.(?:rt|antt))\)((?:(?:,| \.\.| and)? `[^`]+`)+)")
LAW = re.compile(r"\]\([^)\s]*/(?:proofs|specs)/[^)\s]+\) `[^`]+`")


def target(paper, link):
    return os.path.normpath(os.path.join(os.path.dirname(paper), link.split("#")[0]))


def declares(path, name):
    name = re.escape(name.split("::")[-1])
    code = rf"\b(?:fn|struct|enum) {name}\b"
    proof = rf"^\s*(?:(?:pub|abbrev|unfoldable|record|data) )*{name} (?:[^=\n]* )?:(?:\s|$)"
    with open(path, encoding="utf-8") as file:
        return re.search(code if path.endswith(".rt") else proof, file.read(), re.M)


def main():
    faults, links, names, rows = [], 0, 0, 0
    for paper in sorted(path for pattern in PAPERS for path in glob.glob(pattern)):
        columns = []
        for number, line in enumerate(open(paper, encoding="utf-8"), 1):
            here = [link for link in LINK.findall(line) if not re.match(r"[a-z]+:|#", link)]
            links += len(here)
            what = [f"no file {link}" for link in here if not os.path.exists(target(paper, link))]
            if paper == "docs/TRACE.md":
                pairs = [(target(paper, link), name) for link, run in NAMED.findall(line) for name in re.findall("`([^`]+)`", run)]
                names += len(pairs)
                what += [f"{path} declares no {name}" for path, name in pairs if os.path.exists(path) and not declares(path, name)]
                cells = line.strip("| \n").split(" | ")
                if cells[0] == "sentence":
                    columns = cells
                elif line.startswith("| "):
                    rows += 1
                    cell = dict(zip(columns, cells))
                    what += ["another count of cells than columns"] if len(cells) != len(columns) else []
                    what += ["the law cell names no law"] if cell.get("law", "–") != "–" and not LAW.search(cell["law"]) else []
                    what += ["the contract cell has no link"] if cell.get("contract", "–") != "–" and not LINK.search(cell["contract"]) else []
            faults += [f"{paper}:{number}: {fault}" for fault in what]
    print("\n".join(faults) or f"{links} links; in docs/TRACE.md {rows} rows with {names} names: all there")
    return 1 if faults else 0


if __name__ == "__main__":
    sys.exit(main())
