#!/usr/bin/env python3
"""Makes the lists of cases and asks the oracle for the crate's answers.

Usage: make.py [SEED]     (the lists in the repository are of the seed that stands here as SEED)
"""

import random
import sys
from pathlib import Path

sys.dont_write_bytecode = True
HERE = Path(__file__).resolve().parent
sys.path.append(str(HERE.parent / "oracle"))
import walk  # noqa: E402  (the path above has to come first)
from asking import answers, with_room  # noqa: E402
from cases import ends, known, leaves, levels, limits, lines, listed, listings, readings, refusals, repeats, rooms, strings, tables, trees, values  # noqa: E402
from lists import DIFFER, asked, files, is_asked, told  # noqa: E402

SEED = 20261115
# What `modellist` reads of a reply: one byte more than it may have.
MOST_READ = 65_537
# How many random replies to get-value are drawn, and how many are kept of listings and of each refusal; and the longest damaged real one.
VALUES_DRAWN, LISTINGS_KEPT, REFUSALS_KEPT, DAMAGED_LONGEST = 4_000, 12, 4, 1_000
# The folder of the real replies that only the list of listings takes, for it was there after the others were made.
LATER = HERE / "replies" / "values"
# Those that are too large for the rooms of `modellist`.
LARGER = ("fun-rec-200",)


def gathered(ranges):
    """All cases, each once, and for each range its line numbers and where it comes from."""
    cases, spans = {}, []
    for origin, some in ranges:
        before = len(cases)
        cases.update(dict.fromkeys(some))
        spans.append((before + 1, len(cases), origin))
    return list(cases), spans


def written(path, rows):
    path.write_text("".join(row + "\n" for row in rows))


def table(name, spans):
    return [f"| {name} | {first}-{last} | {origin} |" for first, last, origin in spans if last >= first]


def put(name, mode, ranges, own_ranges=()):
    """Writes a list and its answers, behind it cases of our own, whose answers need no Rust; gives back the lines for the table of ranges."""
    cases, spans = gathered(ranges + [(origin, [case for case, _ in pairs]) for origin, pairs in own_ranges])
    asked = spans[len(ranges) - 1][1] if ranges else 0
    own = dict(pair for _, pairs in own_ranges for pair in pairs)
    found = (answers(mode, cases[:asked]) if asked else []) + [own[case] for case in cases[asked:]]
    for path, rows in zip(files(name), (cases, found)):
        written(path, rows)
    return table(name, spans)


def in_hex(ranges):
    return [(origin, [case.hex() for case in some]) for origin, some in ranges]


def real(ending):
    """The real replies of one ending, in an order that does not hang on the file system."""
    return sorted(HERE.glob(f"replies/**/*.{ending}.txt"))


def older(paths):
    """What is in files that are not LATER, each once."""
    return list(dict.fromkeys(path.read_bytes() for path in paths if LATER not in path.parents))


def kind(answer):
    """All listings are one kind of answer, each refusal is one of its own."""
    return "listing" if answer.startswith("listing=") else answer


def parted(cases):
    """The cases where the crate's answer is document 01's, and those where it is not; each with the kinds of its answers."""
    alike, differ = [], []
    for case, got in zip(cases, answers("listings", cases)):
        want = walk.listings(case)
        (alike if got == want else differ).append((case, (kind(want), kind(got))))
    return alike, differ


def in_rooms(letter, pairs):
    """Cases of tables in short and a model each."""
    return [listed.case(letter, listings.tables(short).encode(), model.encode()) for short, model in pairs]


def few(cases, longest=listings.LONGEST):
    """A few cases for each answer."""
    most = lambda answer: LISTINGS_KEPT if answer == "listing" else REFUSALS_KEPT
    return listings.sampled([(case, kind(told(listed.printed(case)))) for case in cases], most, longest)


def value_ranges(rng):
    """Replies to get-value."""
    replies = [((path.parent / "tables.txt").read_bytes(), path.read_bytes()) for path in real("value")]
    drawn = [listed.case("m", *values.random_case(rng)) for _ in range(VALUES_DRAWN)]
    damaged = [(tables, values.damaged(rng, reply)) for tables, reply in (rng.choice(replies) for _ in range(VALUES_DRAWN))]
    return [
        ("replies to get-value: the smallest call for each number but 21, as docs/REFUSALS.md has them", refusals.given_cases()),
        ("replies to get-value, document 02's R-1: edges of its rules", in_rooms("m", known.pairs(values.EDGES))),
        ("replies to get-value nested to levels 1,023 and 1,024", in_rooms("l", values.nested())),
        ("replies to get-value: refused tables, what the reader refuses, what is not lent",
         [listed.case(*parts) for parts in values.before_the_walk()]),
        ("replies to get-value: the rooms just full and short by one, and a reply that is too long",
         [listed.case(*parts) for parts in values.rooms()]),
        ("the real replies to get-value", [listed.case("m", *parts) for parts in replies]),
        ("random tables and replies to get-value, a few for each answer, by the seed", few(drawn)),
        ("damaged copies of real replies to get-value, a few for each answer, by the seed",
         few([listed.case("m", *parts) for parts in damaged], DAMAGED_LONGEST)),
    ]


def listing_ranges(rng):
    edges = listings.edge_cases()
    if parted(edges)[1]:
        sys.exit("an edge of the listings is not alike")
    alike, differ = ([f"M {case}" for case in listings.sampled(some)] for some in parted(listings.drawn(rng)))
    replies = [listed.case("L" if path.parent.name in LARGER else "M", (path.parent / "tables.txt").read_bytes(), path.read_bytes()[:MOST_READ])
               for path in real("model")]
    return [
        ("the smallest call for each number, 1 to 28, as docs/REFUSALS.md has them", refusals.cases()),
        ("document 01's sample and the edges of its rules, where one might doubt that the crate's answer is document 01's",
         [f"M {case}" for case in edges]),
        ("random tables and models on which the crate's answer is document 01's, a few for each answer, by the seed", alike),
        ("random tables and models on which it is not, a few for each pair of answers, by the seed", differ),
        ("the differences from the crate, D1 to D8, S1 and S2 of docs/DIFFERENCES.md, several models each",
         in_rooms("M", known.pairs(known.DIFFERING))),
        ("models for each place where document 01's words leave a doubt", in_rooms("M", known.pairs(readings.DOUBTS))),
        ("repeated members, unions in other order and grouping, arms with equal keys, definitions given twice and skipped ones",
         in_rooms("M", known.pairs(repeats.REPEATS))),
        ("level 1,024 through every form, and levels 1,022 and 1,023 through some of them, which are read to another number",
         in_rooms("L", levels.refused())),
        ("values and sorts nested to level 1,023 through every form that are listed, and more arms than levels", in_rooms("L", levels.listed())),
        ("the real replies of a model, of the longest as much as the program reads", replies),
        ("refused tables, replies that the reader refuses, empty inputs", [listed.case(*parts) for parts in limits.before_the_walk()]),
        ("document 01's rooms, just full and short by one", [listed.case(*parts) for parts in limits.rooms()]),
        ("the longest reply, with as much text as there is room for, and one that is longer by a byte",
         [listed.case(*parts) for parts in limits.lengths()]),
    ]


def put_listings(ranges):
    """The list of listings: document 01's answers, and beside them the crate's where it differs; each difference has to be a listed one."""
    cases, spans = gathered(ranges)
    found = list(map(listed.printed, cases))
    put_in, put_out = files("listings")
    put_in.parent.mkdir(exist_ok=True)
    written(put_in, cases)
    put_out.write_bytes(b"".join(found))
    places = [place for place, pair in enumerate(zip(cases, found)) if is_asked(*pair)]
    differ = []
    for place, got in zip(places, answers("listings", [asked(cases[place]) for place in places])):
        if got != told(found[place]):
            differ.append(f"{place + 1} {got}")
            if walk.explanation(asked(cases[place]), got) is None:
                sys.exit(f"listings: line {place + 1} differs from the crate and is none of the listed differences")
    written(DIFFER, differ)
    return table("listings", spans)


def put_replies():
    """Beside each real model what the crate makes of it, as text."""
    models = real("model")
    cases = [f"{(path.parent / 'tables.txt').read_bytes().hex()} {path.read_bytes().hex()}" for path in models]
    for path, got in zip(models, answers("listings", cases)):
        text = bytes.fromhex(got.removeprefix("listing=")).decode() if got.startswith("listing=") else got + "\n"
        path.with_suffix(".crate.txt").write_text(text)


def main():
    seed = int(sys.argv[1]) if len(sys.argv) > 1 else SEED
    replies = older(real("model") + real("value"))
    real_tables = older(sorted(HERE.glob("replies/**/tables.txt")))
    (HERE / "listings").mkdir(exist_ok=True)
    # One generator a list, so that a change to one list leaves the others as they are.
    rows = put("strings", "strings", in_hex(strings.ranges(random.Random(f"{seed} strings"), replies)), leaves.ranges())
    rows += put("trees", "trees", in_hex(trees.ranges(random.Random(f"{seed} trees"), replies)), rooms.ranges())
    rows += put("tables", "tables", [], tables.ranges(random.Random(f"{seed} tables"), real_tables))
    rows += put("lines", "lines", lines.ranges(random.Random(f"{seed} lines")), ends.ranges())
    rows += put_listings(listing_ranges(random.Random(f"{seed} listings")) + value_ranges(random.Random(f"{seed} values")))
    put_replies()
    written(HERE / "RANGES.md", ["# Where each range of lines comes from", "", f"Made by make.py with the seed {seed}.", "",
                          "| list | lines | origin |", "|---|---|---|", *rows])
    return 0


if __name__ == "__main__":
    with_room(main)
