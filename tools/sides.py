#!/usr/bin/env python3
"""sides.py COMMIT [FILE]: what is public and reads otherwise than at a commit, old and new side by side, as tab separated lines: kind, crate, name,
old, new. Kinds: signature, clause, type (public structs and enums), definition (specs), theorem (proofs/*.antt, public). A name that is gone has
no new side, one that is new no old side; a second law of one name in a file has a 2 behind it; a law inside a `module _` has its head before it. White space counts as one space, so a line that was only laid out again is not listed."""
import re
import subprocess
import sys

from forms import close


def git(*words):
    return subprocess.run(["git", *words], capture_output=True, text=True, check=True).stdout


def flat(text):
    return re.sub(r"\s+", " ", re.sub(r",\s*([)}\]])", r" \1", re.sub(r"([({\[])\s+", r"\1", text))).strip()


def of_source(crate, path, text, found):
    text = re.sub(r"(?m)^\s*//.*$", "", text)
    owner = ""
    for m in re.finditer(r"(?m)^( *)(?:impl(?:<[^>]*>)? (\w+)[^\n]*\{|pub (fn|struct|enum) (\w+))", text):
        if m[2]:
            owner = m[2] + "::"
            continue
        owner = owner if m[1] else ""
        name = owner + m[4]
        if m[3] != "fn":
            end = text.index("{", m.end()) if "{" in text[m.end():m.end() + 40] else text.index(";", m.end())
            found["type", crate, name] = flat(text[m.start():close(text, end) if text[end] == "{" else end + 1])
            continue
        head = re.compile(r"(?m)^\s*(?:requires|ensures)\b|^ *\{$|\{$").search(text, m.end())
        found["signature", crate, name] = flat(text[m.start():head.start() if text[head.start()] != "{" else head.end() - 1])
        at = head.start()
        count = 0
        while clause := re.compile(r"\s*(requires|ensures) ?(\w*) ?\{").match(text, at):
            at = close(text, clause.end() - 1)
            count += 1
            found["clause", crate, f"{name} {clause[1]} {clause[2] or count}"] = flat(text[clause.end() - 1:at])


def of_logic(kind, crate, path, text, found):
    text = re.sub(r"(?m)^\s*--.*$", "", text)
    lines = text.split("\n")
    start = re.compile(r"( *)(?:(?:abbrev|unfoldable) )?pub (?:record |data )?(\S+)(?: |$)")
    heads = []
    at = 0
    while at < len(lines):
        deep = len(lines[at]) - len(lines[at].lstrip())
        if lines[at].strip():
            heads = [h for h in heads if h[0] < deep]
        if head := re.match(r" *module _ (.*)", lines[at]):
            end = at
            while not re.search(r"\bwhere$", lines[end].rstrip()):
                end += 1
            heads.append((deep, flat(" ".join([head[1], *lines[at + 1:end + 1]]))))
            at = end + 1
            continue
        m = start.match(lines[at])
        if not m or lines[at].lstrip().startswith(("pub use", "pub mod")) or (kind == "theorem" and not re.match(r" *pub [^\s({]+(?: \{ℓ\w*\})? :", lines[at])):
            at += 1
            continue
        end = at + 1
        while end < len(lines) and lines[end].strip() and (kind != "theorem" or re.match(m[1] + r"  +\S", lines[end])) and not re.match(m[1] + r"(?:abbrev |unfoldable )?pub ", lines[end]):
            end += 1
        module = re.sub(r".*/(\w+)\.antt$", r"\1", path)
        key, again = f"{module} {m[2]}", 1
        while (kind, crate, key) in found:
            again += 1
            key = f"{module} {m[2]} {again}"
        found[kind, crate, key] = " ".join([f"module {h}" for _, h in heads] + [flat(" ".join(lines[at:end]))])
        at = end


def everything(commit):
    found = {}
    paths = git("ls-tree", "-r", "--name-only", commit, "crates").split() if commit else git("ls-files", "-co", "--exclude-standard", "crates").split()
    for path in paths:
        crate = path.split("/")[1]
        kind = "source" if re.match(r"crates/\w+/src/.*\.rt$", path) else "definition" if re.match(r"crates/\w+/specs/.*\.antt$", path) else "theorem" if re.match(r"crates/\w+/proofs/\w+\.antt$", path) else None
        if not kind:
            continue
        try:
            text = git("show", f"{commit}:{path}") if commit else open(path, encoding="utf8").read()
        except FileNotFoundError:
            continue
        if kind == "source":
            of_source(crate, path, text, found)
        else:
            of_logic(kind, crate, path, text, found)
    return found


def main():
    old, new = everything(sys.argv[1]), everything(None)
    out = open(sys.argv[2], "w", encoding="utf8") if len(sys.argv) > 2 else sys.stdout
    out.write("kind\tcrate\tname\told\tnew\n")
    counts = {}
    for key in sorted(old.keys() | new.keys()):
        a, b = old.get(key, ""), new.get(key, "")
        counts.setdefault(key[0], [0, 0])[0] += 1
        if a != b:
            counts[key[0]][1] += 1
            out.write("\t".join((*key, a, b)) + "\n")
    for kind, (all_, other) in counts.items():
        print(f"{kind}: {other} of {all_} read otherwise", file=sys.stderr)


if __name__ == "__main__":
    main()
