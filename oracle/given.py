#!/usr/bin/env python3
"""Sets our library's listing of replies to get-value beside document 02's R-1 read a second time (walk.py), and beside the crate.

Usage: given.py [SEED [COUNT]]     (the vectors' cases, every real reply to get-value, then COUNT replies drawn by the seed)
Our answer has to be the second reading's, with its need or detail. The crate has no such reader: a reply's image is the model that says the
same, of which our listing has to be that of the reply; the crate is asked for the image, and beside.py judges its answer. Prints counts by
our answer and by difference. Ends with 1 on anything else, with the smallest reply that is found.
"""

import random
import sys
from multiprocessing import Pool

sys.dont_write_bytecode = True
import walk  # noqa: E402
from asking import ours, roomy, with_room  # noqa: E402
from beside import BATCH, SMALL, VECTORS, WORKERS, Case, Judged, Tally, by_the_crate, judged, printed, tallied, told, unlawful  # noqa: E402
from cases import listed, models, values, wider  # noqa: E402
from lists import files, rows  # noqa: E402
from reading import Arena, Refused  # noqa: E402


def spelled(node):
    """A node of the second reading's tree in lists of tokens."""
    if isinstance(node, list):
        return [spelled(part) for part in node]
    kind, what, *width = node
    if kind == 1:
        return b"#b" + f"{what % 2 ** width[0]:0{width[0]}b}".encode()
    if kind == 2:
        return b"%d" % what
    return what if kind == 4 else b'"%s"' % b"".join(b"\\u{%x}" % ord(letter) for letter in what.decode())


def command(tables, part):
    """The definition that says what a pair says, its sort any where the name is to be skipped; what is no pair is no command."""
    if not isinstance(part, list) or len(part) != 2 or not walk.is_symbol(part[0]):
        return []
    name, value = spelled(part)
    row = tables.vars.get(name)
    return [b"define-fun", name, [], b"Zork" if row is None else tables.written(tables.sorts[row]), value]


def image(case):
    """The model that says what a reply to get-value says. What is no list, what the reader refuses and what stands over unlawful tables is
    its own."""
    try:
        root = walk.tree(Arena(case.reply))
    except Refused:
        return case
    if unlawful(case.tables) or not isinstance(root, list):
        return case
    tables = walk.Tables(case.tables, frozenset())
    return Case(case.tables, models.written([command(tables, part) for part in root]))


def wanted(case):
    """Document 02's answer as our library is asked to give it."""
    refusal = unlawful(case.tables)
    return f"{refusal} detail=0" if refusal else told(walk.Model(case.tables, case.reply, values=True).answer())


def asked(cases):
    """All replies judged."""
    images = [image(case) for case in cases]
    mine, same = (ours(lines) for lines in ([f"V {case.line()}" for case in cases], [case.line() for case in images]))
    found = []
    for case, model, got, of_model, crate in zip(cases, images, mine, same, by_the_crate(images)):
        want = wanted(case)
        if got != want:
            found.append(Judged(f"ours {got}\ndocument 02 {want}", got))
        elif got != of_model:
            found.append(Judged(f"ours {got}\nours of its image {of_model}\nthe image: {model.reply!r}", got))
        else:
            found.append(judged(model, of_model, crate))
    return found


def real():
    """The real replies to get-value, over the tables of their folders."""
    return [Case((path.parent / "tables.txt").read_bytes(), path.read_bytes()) for path in sorted(VECTORS.glob("replies/**/*.value.txt"))]


def fixed():
    return [Case(*listed.parts(line)[1:]) for line in rows(files("listings")[0]) if line[0].islower()] + real()


def drawn(rng, replies):
    """One reply by chance: a damaged real one, or one of random tables; now and then these break a rule, or the reader refuses it."""
    if not rng.randrange(8):
        case = rng.choice(replies)
        return case._replace(reply=values.damaged(rng, case.reply))
    tables, reply = values.random_case(rng)
    return Case(tables if rng.randrange(80) else wider.unlawful(rng, tables), reply if rng.randrange(40) else wider.broken(rng, reply))


def batch(numbers):
    """The tally of one batch of drawn replies."""
    seed, place, size = numbers
    rng = random.Random(f"{seed} values {place}")
    replies = [case for case in real() if len(case.reply) <= SMALL]
    return roomy(lambda: tallied([drawn(rng, replies) for _ in range(size)], asked))


def by_chance(pool, seed, count):
    tally = Tally()
    for some in pool.imap(batch, [(seed, place, min(BATCH, count - place)) for place in range(0, count, BATCH)]):
        tally.take(some)
    return tally


def main(pool):
    seed, count = ([int(given) for given in sys.argv[1:]] + [2026, 100_000][len(sys.argv) - 1:])[:2]
    wrong = printed("images of the vectors' and the real replies to get-value", tallied(fixed(), asked), asked)
    return 1 if printed(f"images of replies to get-value of the seed {seed}", by_chance(pool, seed, count), asked) or wrong else 0


if __name__ == "__main__":
    # The workers are started before any thread.
    with Pool(WORKERS) as workers:
        with_room(lambda: main(workers))
