#!/usr/bin/env python3
"""twice.py [FOLDER]: what the definitions and laws of a folder (crates, where none is named) say twice, and laws that nothing cites.

1. Statements of two laws that are the same up to the names of what they bind.
2. Runs of six or more lines that are the same up to names and numbers, in laws and in code; the functions' proofs (Answers.antt and
   Invariants.antt in a folder below proofs/) are passed over.
3. `pub` laws that no other line of any file names; docs/*.md count as citing.

A line printed is a place to look, not a fault."""
import collections
import glob
import re
import sys

LEAST = 6
NAME = re.compile(r"[A-Za-zα-ωΑ-Ω_«][\w'·₀-₉′»-]*")
PASSED = re.compile(r"^\s*(--|//|use |ghost use |pub mod |mod |[{})\]]|$)|goal\.|search rules|^\s*[\w'-]+,?\s*$")
LAW = re.compile(r"^(?:  )?pub ([\w'′·₀-₉-]+)((?: \{[^}]*\})*) :(.*(?:\n(?:  )?    .*)*)", re.M)


# what a function's folder has, which the toolchain starts
PROOF = re.compile(r"/proofs/.+/(Answers|Invariants)\.antt$")
RECORD = re.compile(r"^( *)(?:pub )?(?:record|data) [^\n]* where\n(?:\1  [^\n]*\n)*", re.M)


def shape(line):
    return re.sub(r"\d+", "0", NAME.sub("·", re.sub(r"\s+", " ", line.strip())))


def renamed(statement):
    """A statement with what it binds numbered in order."""
    bound = [n for group in re.findall(r"[({]([^(){}:]*) :", statement) for n in NAME.findall(group)]
    number = {name: f"#{i}" for i, name in enumerate(dict.fromkeys(bound))}
    return re.sub(r"\s+", " ", NAME.sub(lambda m: number.get(m[0], m[0]), statement)).strip()


def main():
    folder = sys.argv[1] if sys.argv[1:] else "crates"
    paths = sorted(p for end in ("antt", "rt") for p in glob.glob(f"{folder}/**/*.{end}", recursive=True) if "/out/" not in p)
    files = {p: open(p, encoding="utf8").read() for p in paths}
    said, laws = collections.defaultdict(list), []
    for path, text in files.items():
        if "/proofs/" in path and not PROOF.search(path):
            for m in LAW.finditer(RECORD.sub("", text)):
                laws.append((m[1], path))
                said[renamed(m[2] + m[3])].append(f"{path} {m[1]}")
    for where in said.values():
        if len(where) > 1:
            print("one statement:", "; ".join(where))
    runs = collections.defaultdict(list)
    for path, text in files.items():
        lines = [(k + 1, shape(line)) for k, line in enumerate(text.split("\n")) if not PASSED.search(line)] if not PROOF.search(path) else []
        for i in range(len(lines) - LEAST + 1):
            key = "\n".join(s for _, s in lines[i:i + LEAST])
            if len(key) > 40 * LEAST:
                runs[key].append((path, lines[i][0]))
    told = set()
    for where in runs.values():
        if len(where) == 2:
            (path, line), (other, there) = sorted(where)
            if not any((path, line - k, other, there - k) in told for k in range(1, 4 * LEAST)):
                print(f"one shape: {path}:{line}; {other}:{there}")
            told.add((path, line, other, there))
    pages = "".join(open(p, encoding="utf8").read() for p in glob.glob("docs/*.md") + ["README.md"])
    cited = collections.Counter(n for text in list(files.values()) + [pages] for n in NAME.findall(text))
    for name, path in laws:
        own = len(re.findall(r"(?<![\w'·-])" + re.escape(name) + r"(?![\w'·-])", files[path]))
        if cited[name] <= own and own <= 2:
            print(f"nothing cites: {path} {name}")


main()
