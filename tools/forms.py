#!/usr/bin/env python3
"""forms.py [POINT..]: counts in crates/*/src the forms of code that docs/DESIGN-PASS.md is about, and prints where they stand.

1 own enums of the shape of Option or Result; a missing value or a refusal handed on by hand; matches on numbers
2 functions that are the same text but for names, types and constants
3 loops by while or loop; of them those that count an index by hand
4 conversions to a number written out by cases, and casts of numbers that cannot lose anything
5 parameters that travel together
6 places written beside a buffer, tables of ends, arenas of words
7 switches that only call one function a case
8 answers and lemmas: how many, and lemmas that nothing else names
With no point: the counts of all, a line each. A line `// Stays: ..` above a place is counted with it."""
import collections
import glob
import re
import sys

FILES = sorted(glob.glob("crates/*/src/*.rt"))
TABLES = ["sorts", "fields", "variables", "functions", "members", "names"]


def read(path):
    with open(path, encoding="utf8") as f:
        return f.read()


def close(text, at, pair="{}"):
    """The place behind the bracket that closes the one at a place."""
    deep = 0
    for i in range(at, len(text)):
        deep += (text[i] == pair[0]) - (text[i] == pair[1])
        if deep == 0:
            return i + 1
    return len(text)


def bare(text):
    """The text without comments, ghost lines and clauses."""
    return re.sub(r"(?m)^\s*(?://|ghost use |requires\b|ensures\b).*$", "", text)


def functions(text):
    """Each function: its name, its head up to the body, and its body."""
    for m in re.finditer(r"\bfn (\w+)", text):
        body = re.compile(r"(?m)^ *\{$|\{$").search(text, m.end())
        if body:
            at = body.end() - 1
            yield m.start(), m[1], text[m.start():at], text[at:close(text, at)]


def line(text, at):
    return text.count("\n", 0, at) + 1


def enums():
    for path in FILES:
        text = bare(read(path))
        for m in re.finditer(r"\benum (\w+) \{", text):
            body = text[m.end():close(text, m.end() - 1) - 1]
            flat = re.sub(r"\{[^}]*\}|\([^)]*\)", lambda h: "(Refusal)" if h[0] == "(Refusal)" else "(..)", body)
            yield path, line(text, m.start()), m[1], [c.strip() for c in flat.split(",") if c.strip()]


def option_shaped(cases):
    held = [c for c in cases if "(" in c]
    return len(cases) == 2 and len(held) == 1 and "(Refusal)" not in held[0]


def result_shaped(cases):
    return any(c.endswith("(Refusal)") for c in cases)


def point_1():
    found, shaped, units = [], set(), {("", "None")}
    for path, at, name, cases in enums():
        if option_shaped(cases) or result_shaped(cases):
            found.append(f"{path}:{at}: enum {name} {{ {', '.join(cases)} }}")
            shaped.add(name)
            units |= {(name + "::", c) for c in cases if "(" not in c}
    yield "own enums of the shape of Option or Result", found
    handed = []
    for path in FILES:
        text = bare(read(path))
        for m in re.finditer(r"else \{\s*return (\w+::|)(\w+);\s*\}", text):
            pattern = re.search(r"let (\w+(?:::\w+)?)[^;]*$", text[:m.start()])
            if (m[1], m[2]) in units and pattern and (pattern[1] == "Some" or m[1] or pattern[1].split("::")[0] in shaped):
                handed.append(f"{path}:{line(text, m.start())}: let .. else return {m[1]}{m[2]}")
        for m in re.finditer(r"(?:\w+::Refused|Err)\((\w+)\) => (?:return )?(?:\w+::Refused|Err)\(\1\)|\w*(?:::)?None => (?:return )?None\b", text):
            handed.append(f"{path}:{line(text, m.start())}: {m[0]}")
    yield "a missing value or a refusal handed on by hand", handed
    numbers = []
    for path in FILES:
        text = bare(read(path))
        for m in re.finditer(r"\bmatch [^{;]*\{", text):
            body = text[m.end():close(text, m.end() - 1)]
            if re.match(r"\s*(?:\d+|[A-Z][A-Z_]+|b'.') =>", body):
                numbers.append(f"{path}:{line(text, m.start())}: {m[0][:60]}")
    yield "matches on numbers", numbers


def point_2():
    groups = collections.defaultdict(list)
    for path in FILES:
        text = bare(read(path))
        for at, name, head, body in functions(text):
            if body.count("\n") < 6:
                continue
            names = {}
            flat = re.sub(r"\s+", " ", re.sub(r"(?:ensures|requires)[^\n]*", "", head)[len("fn " + name):] + body)
            flat = re.sub(r"b?\"[^\"]*\"|b?'.'|\b\d+\b", "0", flat)
            key = re.sub(r"\b(?!fn\b|let\b|if\b|else\b|while\b|for\b|in\b|return\b|match\b|mut\b|as\b|self\b)[A-Za-z_]\w*", lambda m: names.setdefault(m[0], f"n{len(names)}"), flat)
            groups[key].append(f"{path}:{line(text, at)}: {name}")
    twins = [g for g in groups.values() if len(g) > 1]
    yield "functions that are one text but for names and constants", [t for g in twins for t in g]


def point_3():
    loops, counted = [], []
    for path in FILES:
        text = bare(read(path))
        for m in re.finditer(r"\b(while\b([^{]*)|loop )\{", text):
            body = text[m.end():close(text, m.end() - 1)]
            place = f"{path}:{line(text, m.start())}: {m[0]}"
            loops.append(place)
            for v in set(re.findall(r"\b[a-z_]\w*", m[2] or "")):
                steps = re.findall(rf"(?m)^\s*{v} (\+=|-=|=) ([^;]*);", body)
                if steps and all(s in (("+=", "1"), ("-=", "1")) for s in steps):
                    counted.append(place)
                    break
    yield "loops by while or loop", loops
    yield "of them, an index counted by hand", counted


def point_4():
    cases, casts, own = [], [], []
    for path in FILES:
        text = bare(read(path))
        for at, name, head, body in functions(text):
            m = re.match(r"\{\s*match [^{]*\{", body)
            arms = re.findall(r"=> (-?\w+),", body) if m else []
            if re.search(r"-> (?:u8|u16|u32|u64|usize)\b", head) and arms and all(a.isdigit() or a.islower() or a.isupper() for a in arms):
                cases.append(f"{path}:{line(text, at)}: {name}")
            if re.search(r"\bfn (?:greater|least|larger|smaller|max|min|same|equal|alike|all_alike)\b", head):
                own.append(f"{path}:{line(text, at)}: {name}")
        for m in re.finditer(r"[\w\])]+ as (?:u64|u32|usize)\b", text):
            casts.append(f"{path}:{line(text, m.start())}: {m[0]}")
    yield "a number for each case, written out", cases
    yield "greatest, least and equality written by hand", own
    yield "casts to wider or equal numbers", casts


def point_5():
    groups = {"the tables' slices": [], "nodes and text of an arena": [], "offset and size of a text": [], "out and the place in it": []}
    for path in FILES:
        text = bare(read(path))
        for at, name, head, _ in functions(text):
            given = re.findall(r"\b(\w+): ", head.split("ensures")[0].split("requires")[0])
            place = f"{path}:{line(text, at)}: {name}"
            if sum(t in given for t in TABLES) > 1:
                groups["the tables' slices"].append(place)
            if ("nodes" in given or "words" in given) and "text" in given:
                groups["nodes and text of an arena"].append(place)
            if "offset" in given and "size" in given:
                groups["offset and size of a text"].append(place)
            if "out" in given and ("at" in given or "place" in given):
                groups["out and the place in it"].append(place)
    yield from groups.items()


def point_6():
    places, ends, arenas = [], [], []
    for path in FILES:
        text = bare(read(path))
        for at, name, head, _ in functions(text):
            given = head.split("ensures")[0].split("requires")[0]
            spot = f"{path}:{line(text, at)}: {name}"
            if re.search(r"out: &mut \[u\d+\]", given) and re.search(r"\b(?:at|place|to): usize", given):
                places.append(spot)
            if re.search(r"\bends: &\[u64\]", given):
                ends.append(spot)
            if re.search(r"\b(?:nodes|words): &(?:mut )?\[u64\]", given):
                arenas.append(spot)
    yield "a buffer and the place in it", places
    yield "a text and a table of ends", ends
    yield "nodes as words, found by number", arenas


def point_7():
    found = []
    for path in FILES:
        text = bare(read(path))
        for m in re.finditer(r"\bmatch [^{;]*\{", text):
            body = text[m.end():close(text, m.end() - 1) - 1]
            arms = re.split(r"=>", body)[1:]
            if len(arms) > 1 and all(re.match(r"\s*(?:self\.)?[a-z_]\w*(?:::\w+)?\(", a) for a in arms):
                found.append(f"{path}:{line(text, m.start())}: {m[0][:60]}")
    yield "switches that call one function a case", found


def point_8():
    answers, lemmas, texts = [], [], {p: read(p) for p in glob.glob("crates/*/proofs/**/*.antt", recursive=True) + glob.glob("crates/*/specs/**/*.antt", recursive=True)}
    words = collections.Counter(w for t in texts.values() for w in re.findall(r"[A-Za-z_][\w'?-]*", t))
    pages = "".join(read(p) for p in glob.glob("docs/*.md") + ["README.md"])
    for path, text in texts.items():
        if path.endswith("/Answers.antt"):
            answers += [f"{path}: {n}" for n in re.findall(r"(?m)^pub (\S+) : goal\.", text)]
        elif re.fullmatch(r"crates/\w+/proofs/\w+\.antt", path):
            for n in re.findall(r"(?m)^ *(?:pub )?([a-z][\w'?-]*) : ", text):
                if words[n] <= text.count(n) and len(re.findall(rf"(?<![\w'?-]){re.escape(n)}(?![\w'?-])", text)) <= 2 and n not in pages:
                    lemmas.append(f"{path}: {n}")
    yield "answers", answers
    yield "lemmas that nothing else names", lemmas


POINTS = {"1": point_1, "2": point_2, "3": point_3, "4": point_4, "5": point_5, "6": point_6, "7": point_7, "8": point_8}


def main():
    asked = sys.argv[1:]
    for n in asked or POINTS:
        for title, places in POINTS[n]():
            print(f"{n}. {title}: {len(places)}")
            for p in places if asked else []:
                print("  ", p)


if __name__ == "__main__":
    main()
