#!/usr/bin/env python3
"""Sets our library beside the crate and beside document 01 read a second time (walk.py), model by model.

Usage: beside.py [SEED [COUNT]]     (the vectors' list, the real replies, models at the edge of nesting; then models drawn by the seed until
COUNT of them were compared whole)
Our answer has to be document 01's, with the need of its listing. The crate's has to be ours where the model meets none of the differences
that docs/DIFFERENCES.md lists; where it meets some, it has to be the answer that these lead to, all of them taken up and no other. Prints
counts by our answer and by difference. Ends with 1 on anything else, with the smallest model that is found.
"""

import random
import re
import sys
from collections import Counter
from functools import lru_cache
from multiprocessing import Pool
from typing import NamedTuple, Optional

sys.dont_write_bytecode = True
import walk  # noqa: E402
from asking import ROOT, answers, ours, roomy, with_room  # noqa: E402
from cuts import smaller  # noqa: E402

VECTORS = ROOT / "vectors"
sys.path.append(str(VECTORS))
from cases import known, levels, listed, listings, models, readings, repeats, tabling, trees, wider  # noqa: E402
from lists import files, rows  # noqa: E402

WORKERS, BATCH, ROUND = 2, 1_250, 8
SHOWN, TRIED = 3, 48
# The longest real model that is damaged.
SMALL = 1_500
# How many models have a set or a body so long that it is put in order piece by piece.
LARGE, LONGEST = 12, 4_000


class Case(NamedTuple):
    """Tables and a reply, and the reply's nodes where it was made of nodes."""

    tables: bytes
    reply: bytes
    nodes: Optional[list] = None

    def line(self):
        return f"{self.tables.hex()} {self.reply.hex()}"


class Judged(NamedTuple):
    """What is wrong with a case, or None; our answer's kind; the differences met; how the crate's answer stands to ours; and the command
    at which the crate is followed no further."""

    fault: Optional[str]
    kind: str
    met: frozenset = frozenset()
    stands: str = "no crate"
    ended: int = 0


@lru_cache(maxsize=4096)
def unlawful(tables):
    """The refusal of tables, or None."""
    if len(tables) > tabling.LONGEST_TEXT:
        return "refused=9"
    try:
        tabling.check(tabling.parsed(tables))
    except tabling.Bad:
        return "refused=25"
    return None


def told(answer):
    """An answer of document 01's as our library is asked to give it."""
    return f"{answer.told} need={answer.need}" if answer.need is not None else f"{answer.told} detail=0"


def judged(case, mine, crate):
    """One case; `crate` is None where it was not asked."""
    refusal = unlawful(case.tables)
    if refusal:
        wanted = f"{refusal} detail=0"
        return Judged(None if mine == wanted else f"ours {mine}\ndocument 01 {wanted}", refusal, frozenset(["S4"]))
    model = walk.Model(case.tables, case.reply)
    plain = model.answer()
    kind = kind_of(plain)
    if mine != told(plain):
        return Judged(f"ours {mine}\ndocument 01 {told(plain)}", kind)
    return beside_the_crate(model, plain, crate)


def kind_of(answer):
    return "listing" if answer.need is not None else answer.told


def beside_the_crate(model, plain, crate):
    """A model whose answer is `plain`: the crate's answer has to be the one that the differences met lead to."""
    kind, followed = kind_of(plain), model.followed(plain)
    if followed.told is None:
        return Judged(None, kind, followed.met, "not followed", followed.ended)
    if crate != followed.told:
        return Judged(f"the crate {crate}\nby the differences met ({' '.join(sorted(followed.met)) or 'none'}) {followed.told}\nours {told(plain)}", kind)
    if followed.met and model.answer(followed.met).told != followed.told:
        return Judged(f"the differences met, {' '.join(sorted(followed.met))}, do not lead to the crate's answer {crate}", kind)
    return Judged(None, kind, followed.met, "alike" if crate == plain.told else "apart")


def by_the_crate(cases):
    """The crate's answers, None where it is not asked: over tables that are unlawful, for it has no rules for them."""
    lawful = {place for place, case in enumerate(cases) if not unlawful(case.tables)}
    crate = iter(answers("listings", [cases[place].line() for place in sorted(lawful)]))
    return [next(crate) if place in lawful else None for place in range(len(cases))]


def asked(cases):
    """All cases judged."""
    return [judged(*three) for three in zip(cases, ours([case.line() for case in cases]), by_the_crate(cases))]


class Tally:
    """Counts by our answer, by difference and by mixture, and what is wrong."""

    def __init__(self):
        self.kinds, self.met, self.faults, self.count = Counter(), Counter(), [], 0

    def add(self, case, found):
        self.count += 1
        if found.fault:
            self.faults.append((case, found.fault))
            return
        self.kinds[found.kind, whole(found)] += 1
        for way in found.met:
            self.met[way, found.stands] += 1

    def take(self, other):
        self.kinds.update(other.kinds)
        self.met.update(other.met)
        self.faults += other.faults
        self.count += other.count

    def whole(self):
        """How many models were compared whole with the crate: those that meet no difference."""
        return sum(count for (_, what), count in self.kinds.items() if what == "whole")


def whole(found):
    return "whole" if not found.met else "alike" if found.stands == "alike" else "apart"


def tallied(cases, asked=asked):
    """The tally of cases. Where the crate is not followed, the same model without that command is a case of its own."""
    tally = Tally()
    while cases:
        rest = []
        for case, found in zip(cases, asked(cases)):
            tally.add(case, found)
            if found.stands == "not followed" and case.nodes and len(case.nodes) > 1:
                nodes = case.nodes[:found.ended] + case.nodes[found.ended + 1:]
                rest.append(Case(case.tables, models.written(nodes), nodes))
        cases = rest
    return tally


def smallest(case, asked):
    """The smallest reply that is found by leaving out parts of one that is wrong, as long as it is wrong; and what is wrong with it."""
    while True:
        tries = [Case(*parts) for parts in smaller(case.tables, case.reply)]
        for at in range(0, len(tries), TRIED):
            some = tries[at:at + TRIED]
            wrong = [one for one, found in zip(some, asked(some)) if found.fault]
            if wrong:
                case = wrong[0]
                break
        else:
            return case, asked([case])[0].fault


def fixed():
    """The vectors' list, the differences and doubts one by one, every real reply of a model, models at the edge of nesting."""
    for line in rows(files("listings")[0]):
        if line[0].isupper():
            yield Case(*listed.parts(line)[1:])
    groups = (known.DIFFERING, readings.DOUBTS, repeats.REPEATS)
    for short, model in [*listings.EDGES, *(pair for group in groups for pair in known.pairs(group)), *levels.refused(), *levels.listed()]:
        yield Case(listings.tables(short).encode(), model.encode())
    for path in sorted(VECTORS.glob("replies/**/*.model.txt")):
        yield Case((path.parent / "tables.txt").read_bytes(), path.read_bytes())
    yield Case(b"sort=entity " + b"a" * tabling.LONGEST_TEXT + b"\n", b"()")
    yield Case(b"", b"()")
    for place in range(LARGE):
        yield Case(*wider.large(random.Random(place), LONGEST))


def drawn(rng, replies):
    """One model by chance."""
    pick = rng.randrange(8)
    if pick < 4:
        return Case(*models.random_case(rng))
    if pick < 7:
        return Case(*wider.random_case(rng))
    tables, reply = rng.choice(replies)
    return Case(tables, trees.with_a_fault(rng, reply))


def batch(numbers):
    """The tally of one batch of drawn models."""
    rng = random.Random(f"{numbers[0]} models {numbers[1]}")
    found = sorted(VECTORS.glob("replies/*/*.model.txt"))
    replies = [((path.parent / "tables.txt").read_bytes(), path.read_bytes()) for path in found if path.stat().st_size <= SMALL]
    return roomy(lambda: tallied([drawn(rng, replies) for _ in range(BATCH)]))


def printed(what, tally, asked=asked):
    """The counts of a tally; gives back whether something is wrong."""
    print(f"{what}: {tally.count} models, {tally.whole()} of them compared whole; wrong: {len(tally.faults)}")
    kinds = sorted({kind for kind, _ in tally.kinds}, key=lambda kind: (len(kind.split("=")), int(kind.partition("=")[2] or 0)))
    print("  our answer     no difference met    met, alike    met, apart or not asked")
    for kind in kinds:
        print(f"  {kind:<12}{tally.kinds[kind, 'whole']:>20}{tally.kinds[kind, 'alike']:>14}{tally.kinds[kind, 'apart']:>27}")
    print("  difference     the crate alike    apart    not followed    no crate")
    for way in sorted({way for way, _ in tally.met}):
        alike, apart, lost, alone = (tally.met[way, stands] for stands in ("alike", "apart", "not followed", "no crate"))
        print(f"  {way:<12}{alike:>18}{apart:>9}{lost:>16}{alone:>12}", flush=True)
    for case, fault in sorted(tally.faults, key=lambda one: len(one[0].line()))[:SHOWN]:
        small, why = smallest(case, asked)
        print(f"DIFFERENCE\n{shown(why or fault)[:2000]}\ntables:\n{small.tables.decode('utf-8', 'backslashreplace')}reply: {small.reply!r}\n"
              f"case: {small.line()}\nfound first as: {case.line()[:4000]}")
    return bool(tally.faults)


def shown(answers):
    """Answers with their listings as text."""
    return re.sub("listing=([0-9a-f]*)", lambda found: f"listing {bytes.fromhex(found[1])!r}", answers)


def by_chance(pool, seed, count):
    """Batches in rounds, so that the same seed and count give the same models, until so many were compared whole."""
    tally, done = Tally(), 0
    while tally.whole() < count and not tally.faults:
        for some in pool.map(batch, [(seed, done + at) for at in range(ROUND)], chunksize=1):
            tally.take(some)
        done += ROUND
        print(f"{tally.count} models", file=sys.stderr, flush=True)
    return tally


def main(pool):
    seed, count = ([int(given) for given in sys.argv[1:]] + [2026, 100_000][len(sys.argv) - 1:])[:2]
    wrong = printed("listed models and real replies", tallied(list(fixed())))
    return 1 if printed(f"models of the seed {seed}", by_chance(pool, seed, count)) or wrong else 0


if __name__ == "__main__":
    # The workers are started before any thread.
    with Pool(WORKERS) as workers:
        with_room(lambda: main(workers))
