#!/usr/bin/env python3
"""Respells the repository's own definitions and lemmas: words in snake case, a dash only between two names, facts as types. Run once, after
the toolchain's own porting script; prints each name that it changed. usage: tools/respell.py [--write]"""
import collections
import os
import re
import sys

# A definition and a lemma that would fall together, and the few names that no rule turns.
CHOSEN = {
    "asFound": "found_as", "record-row": "RecordRow", "standAll": "StandAll", "two-says": "TwoSays",
}
# Variables, and names given at an import.
VARIABLES = "argSort argOffset argSize argLong toldAfter inComment sortBelow outAfter isDecimal fieldsExit fieldsEntry optionShape treeText treeTexts rowFound variableFound functionFound bitVecSort"
# Names that stand for values and began with a capital, each in the one file that has it.
LOCAL = {
    "crates/commands/proofs/Commands.antt": {"Wrong": "wrong", "All": "all_five"},
    "crates/literals/proofs/Plans.antt": {"Arms": "arms_read"},
    "crates/walk/proofs/Notes.antt": {"Read": "pair_read"},
}
# Lemmas that would have a definition's name, in the files that have both and those that cite them.
for _path, _words in [
    ("crates/value_text/proofs/Arms.antt", "as_none some_of as-some as-empty"),
    ("crates/value_text/proofs/Apps.antt", "as_none some_of as-some as-empty"),
    ("crates/tables_text/proofs/Stores.antt", "left_by"),
    ("crates/literals/proofs/Made.antt", "made_row same_count"),
    ("crates/literals/proofs/plan/plan_made/Proof.antt", "made_row"),
    ("crates/tables/proofs/Lawful.antt", "member_right"),
    ("crates/well_sorted/proofs/Members.antt", "member_right"),
    ("crates/walk/proofs/Sizes.antt", "on_row"),
    ("crates/demand/proofs/Commands.antt", "on_row"),
    ("crates/listing/proofs/Tallies.antt", "one_in"),
    ("crates/listing/proofs/Readings.antt", "value_as"),
]:
    LOCAL.setdefault(_path, {}).update({w: w.replace("-", "_") + "_lem" for w in _words.split()})
# A fact that other crates name: the field of a record that is called alike stays.
for _path in [
    "crates/listing/proofs/Readings.antt",
    "crates/shapes/specs/Shows.antt",
    "crates/arena/proofs/Arenas.antt",
    "crates/arena/proofs/Layouts.antt",
    "crates/arena_check/proofs/Builds.antt",
    "crates/arena_check/proofs/Insides.antt",
    "crates/arena_check/proofs/Answers.antt",
    "crates/settled/proofs/Quiet.antt",
    "crates/settled/proofs/Steps.antt",
    "crates/equality/proofs/Clears.antt",
    "crates/equality/proofs/Singles.antt",
    "crates/equality/proofs/Parts.antt",
    "crates/arena/specs/Stands.antt",
]:
    LOCAL.setdefault(_path, {})["stands"] = "TreeStands"
DECLARES = re.compile(r"\s*((?:abbrev |unfoldable |pub )*)(record |data |ruleset )?([^\s:(){}.,;]+)((?:\s*[({][^)]*[)}])*)\s*:(?!=)(.*)$")
TOKEN = re.compile(r"[^\s(){},.;`|\"]+")
WORD = re.compile(r"[A-Za-z][A-Za-z0-9_'?-]*")


def walk(top, ends):
    for folder, dirs, files in os.walk(top):
        dirs[:] = sorted(d for d in dirs if d not in ("out", "src.txt"))
        for f in sorted(files):
            if f.endswith(ends):
                yield os.path.join(folder, f)


def own(path):
    """Whether a file holds definitions or lemmas, and not one function's proof."""
    parts = path.split("/")
    return len(parts) == 4 and parts[2] in ("specs", "proofs")


def declared():
    names = {}
    for path in walk("crates", (".antt",)):
        if own(path):
            for line in open(path, encoding="utf-8"):
                if line.lstrip().startswith("--") or line.startswith("use ") or re.match(r"\s*(let\b|\()", line):
                    continue
                m = DECLARES.match(line)
                if m:
                    names.setdefault(m.group(3), set()).add(path)
    return names


def snake(name):
    return re.sub(r"(?<=[a-z0-9'])([A-Z])", lambda m: "_" + m.group(1).lower(), name)


def plan():
    names = declared()
    defined = {snake(n) for n, paths in names.items() if "-" not in n}
    for path in walk("crates", (".rt",)):
        text = open(path, encoding="utf-8").read()
        defined |= set(re.findall(r"\bfn ([a-z_0-9]+)", text))
    defined |= {"length", "append", "map", "take", "drop", "set", "reverse", "cond", "snoc", "tabulate"}
    tokens = {}
    for path in walk("crates", (".antt",)):
        if not own(path):
            continue
        local = LOCAL.get(path, {})
        tokens[path] = {local.get(w, w) for w in TOKEN.findall(open(path, encoding="utf-8").read())}
    places = collections.defaultdict(set)
    for path, ws in tokens.items():
        for w in ws:
            places[w].add(path)
    turned = {}
    turned |= {w: snake(w) for w in VARIABLES.split()} | CHOSEN
    for name in sorted(names, key=lambda n: ("-" in n, n)):
        if name in CHOSEN:
            turned[name] = CHOSEN[name]
            continue
        new = name
        if name[:1].islower() and re.search(r"[a-z0-9'][A-Z]", name):
            new = snake(name) if "-" not in name else "-".join(snake(p) for p in name.split("-"))
        if "-" in new and not new.startswith("-") and not new.endswith("-"):
            parts = new.split("-")
            new = parts[0]
            for a, b in zip(parts, parts[1:]):
                new += ("-" if a in defined and b in defined else "_") + b
        if new == name:
            continue
        if places[new] & places[name]:
            assert "-" in name, (name, new, places[new] & places[name])
            new += "_lem"
            assert not places[new] & places[name], (name, new)
        places[new] |= places[name]
        turned[name] = new
    return turned


def turn_antt(text, turned, local, proof):
    out = []
    for line in text.split("\n"):
        comment = line.lstrip().startswith("--")

        def one(m):
            w = m.group(0)
            field = w == "stands" and re.match(r" =(?!=)", line[m.end():])
            if w in local and not comment and not field:
                return local[w]
            new = turned.get(w)
            if new is None or comment and "-" in w:
                return w
            if proof and "-" in w and m.start() and line[m.start() - 1] == ".":
                return w
            return new

        out.append(TOKEN.sub(one, line))
    return "\n".join(out)


def turn_words(text, turned, quoted):
    if quoted:
        return re.sub(r"`[^`\n]*`", lambda m: WORD.sub(lambda w: turned.get(w.group(0), w.group(0)), m.group(0)), text)
    return WORD.sub(lambda w: turned.get(w.group(0), w.group(0)), text)


def main():
    write = "--write" in sys.argv
    turned = plan()
    camel = {a: b for a, b in turned.items() if re.search(r"[a-z0-9'][A-Z]", a)}
    pages = ["README.md", "CONTRIBUTING.md"] + [os.path.join("docs", f) for f in sorted(os.listdir("docs")) if f.endswith(".md") and f != "PORT.md"]
    for path in list(walk("crates", (".antt", ".rt", ".edit"))) + pages:
        text = open(path, encoding="utf-8").read()
        if path.endswith(".antt"):
            new = turn_antt(text, turned, LOCAL.get(path, {}), not own(path))
        elif path.endswith(".rt"):
            new = turn_words(turn_words(text, camel, False), turned, True)
            new = re.sub(r"(?m)^ghost use [^;]*;", lambda m: turn_words(m.group(0), turned, False), new)
        elif path.endswith(".edit"):
            new = turn_words(text, camel, False)
        else:
            new = turn_words(turn_words(text, camel, False), turned, True)
        if new != text and write:
            with open(path, "w", encoding="utf-8") as f:
                f.write(new)
    for a, b in sorted(turned.items()):
        print(a, b)


if __name__ == "__main__":
    main()
