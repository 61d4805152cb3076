#!/usr/bin/env python3
"""Sets the crate's answers beside document 01 read a second time (reading.py, walk.py).

Usage: compare.py [SEED [COUNT]]     (the vectors' lists and the real replies, then COUNT random cases of each kind)
Ends with 1 where a list's answers are not the crate's, or where a difference is not one of those that
docs/DIFFERENCES.md lists.
"""

import random
import sys
from collections import Counter

sys.dont_write_bytecode = True
import reading  # noqa: E402
import walk  # noqa: E402
from asking import ROOT, answers, with_room  # noqa: E402

VECTORS = ROOT / "vectors"
sys.path.append(str(VECTORS))
from cases import lines, models, refusals, strings, trees  # noqa: E402
from lists import files, read, rows  # noqa: E402

SHOWN = 5
# Widths up to which every pair of operands is tried, and the longest real model that is damaged.
EXHAUSTIVE, SMALL = 4, 1500
ONE_BOOL = b"sort=bool\nvar=b 0\n".hex()
READERS = {"strings": reading.strings, "trees": reading.trees, "lines": reading.lines, "listings": walk.listings}


def compared(mode, cases, what):
    """Prints the tally of one batch; gives back the number of unexplained differences."""
    tally, unexplained = Counter(), []
    for case, found in zip(cases, answers(mode, cases)):
        wanted = READERS[mode](case)
        why = "alike" if wanted == found else walk.explanation(case, found) if mode == "listings" else None
        tally[why] += 1
        if why is None:
            unexplained.append((case, wanted, found))
    print(f"{what}: {len(cases)} cases;", ", ".join(f"{why or 'UNEXPLAINED'} {count}" for why, count in sorted(tally.items(), key=str)))
    for case, wanted, found in unexplained[:SHOWN]:
        print(f"  case {case[:2000]}\n  document 01 {wanted[:2000]}\n  the crate   {found[:2000]}")
    return len(unexplained)


def stale(name, mode):
    """Whether a list's answers in the repository are not what the crate answers."""
    cases, kept = read(name)
    fresh = answers(mode, cases)
    if fresh != kept:
        print(f"the answers of {name} are not what the crate answers")
    return fresh != kept


def unlisted():
    """Whether the calls of docs/REFUSALS.md are not those that the gate makes."""
    calls, made = refusals.cases(), rows(files("listings")[0])
    if made[:len(calls)] != calls or not set(refusals.given_cases()) <= set(made):
        print("the first cases of listings are not the calls of docs/REFUSALS.md, or those of get-value are not among them")
        return True
    return False


def lists():
    faults = int(unlisted())
    for name, mode in (("strings", "strings"), ("trees", "trees"), ("lines", "lines"), ("listings", "listings")):
        faults += stale(name, mode)
        faults += compared(mode, read(name)[0], name)
    return faults


def real():
    """Every real reply of a model with its tables, models at the edge of nesting, and every reply as a tree."""
    found = sorted(VECTORS.glob("replies/**/*.model.txt"))
    cases = [f"{(path.parent / 'tables.txt').read_bytes().hex()} {path.read_bytes().hex()}" for path in found]
    faults = compared("listings", cases, "real models")
    cases = [" ".join(part.encode().hex() for part in case) for case in nested()]
    faults += compared("listings", cases, "nested models")
    found += sorted(VECTORS.glob("replies/**/*.value.txt"))
    return faults + compared("trees", [path.read_bytes().hex() for path in found], "real replies as trees")


def nested():
    """Models at the edge of document 01's nesting, 1,023 levels: unions around a singleton, and options in options."""
    for depth in range(walk.DEEPEST - 2, walk.DEEPEST + 2):
        value = "(set.union (set.singleton \"a\") " * depth + "(set.singleton \"a\")" + ")" * depth
        yield "sort=string\nsort=set 0\nvar=x 1\n", f"((define-fun x () (Set String) {value}))"
        if depth <= walk.DEEPEST:
            # One option more would need more rows than tables may have.
            rows = "sort=bool\n" + "".join(f"sort=option {row}\n" for row in range(depth))
            sort, value = (word * depth + core + ")" * depth for word, core in (("(Option ", "Bool"), ("(some ", "true")))
            yield f"{rows}var=x {depth}\n", f"((define-fun x () {sort} {value}))"


def operators(rng):
    """What the crate works out where document 01 says 22: on vectors of one width it is the standard's meaning."""
    cases, wanted = [], []
    for width in range(1, 129):
        least, past = -2 ** (width - 1), 2 ** (width - 1)
        every = range(least, past) if width <= EXHAUSTIVE else [least, least + 1, -1, 0, 1, past - 1, *(rng.randrange(least, past) for _ in range(4))]
        for one in every:
            pairs = [("bvsaddo", one + other, other) for other in every] + [("bvsmulo", one * other, other) for other in every]
            for name, result, other in [("bvnego", -one, None), *pairs]:
                operands = [f"(_ bv{number % 2 ** width} {width})" for number in (one, other) if number is not None]
                cases.append(f"{ONE_BOOL} {f'((define-fun b () Bool ({name} {chr(32).join(operands)})))'.encode().hex()}")
                wanted.append("false" if least <= result < past else "true")
    found = [bytes.fromhex(answer.split("=")[1]).decode().split("value=")[1][:-1] for answer in answers("listings", cases)]
    print(f"operators: {len(cases)} cases; as the standard says {sum(map(str.__eq__, found, wanted))}")
    return found != wanted


def damaged_models(rng, count):
    """Real models with one fault, beside their own tables."""
    found = [path for path in sorted(VECTORS.glob("replies/*/*.model.txt")) if path.stat().st_size <= SMALL]
    for _ in range(count):
        path = rng.choice(found)
        yield f"{(path.parent / 'tables.txt').read_bytes().hex()} {trees.with_a_fault(rng, path.read_bytes()).hex()}"


def by_chance(seed, count):
    rng = random.Random(seed)
    replies = [path.read_bytes() for path in sorted(VECTORS.glob("replies/*/*.txt"))]
    faults = compared("strings", [case.hex() for case in strings.random_ones(rng, count)], "random strings")
    faults += compared("trees", [case.hex() for case in trees.soups(rng, count)], "random tokens")
    faults += compared("trees", [case.hex() for case in trees.damaged(rng, replies, count)], "damaged replies")
    faults += compared("lines", list(lines.random_ones(rng, count)), "random lines")
    cases = [" ".join(part.hex() for part in models.random_case(rng)) for _ in range(count)]
    faults += compared("listings", cases, "random models")
    return faults + compared("listings", list(damaged_models(rng, count)), "damaged models") + operators(rng)


def main():
    seed, count = ([int(given) for given in sys.argv[1:]] + [1, 10_000][len(sys.argv) - 1:])[:2]
    return 1 if lists() + real() + by_chance(seed, count) else 0


if __name__ == "__main__":
    with_room(main)
