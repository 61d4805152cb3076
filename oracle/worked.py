#!/usr/bin/env python3
"""Sets the crate's answers beside the second reading with document 02's R-2 taken up, which works out operators (walk.py, `worked`).

Usage: worked.py [SEED [COUNT]]     (the listed cases of vectors/cases/operators.py, all models and replies that beside.py and given.py
list, then COUNT models and COUNT replies to get-value drawn by the seed, with operators wherever a value may stand)
The second reading's answer has to be the listed one. Without R-2 it has to be 22 or the same. The crate's has to be it too where no
difference is met, or else the one that the differences lead to; a reply to get-value is judged by its image. Prints counts by answer and by
difference. Ends with 1 on anything else, with the smallest model that is found.
"""

import random
import sys
from multiprocessing import Pool

sys.dont_write_bytecode = True
import walk  # noqa: E402
from asking import roomy, with_room  # noqa: E402
from beside import BATCH, WORKERS, Case, Judged, Tally, beside_the_crate, by_the_crate, fixed, kind_of, printed, tallied, unlawful  # noqa: E402
from cases import listed as vectors, listings, operators  # noqa: E402
from confirm import short  # noqa: E402
from given import fixed as given, image  # noqa: E402
from lists import told  # noqa: E402

SHOWN = 5


def asked(cases):
    """All models judged."""
    return [judged(case, crate) for case, crate in zip(cases, by_the_crate(cases))]


def judged(case, crate):
    refusal = unlawful(case.tables)
    if refusal:
        return Judged(None, refusal, frozenset(["S4"]))
    model = walk.Model(case.tables, case.reply, worked=True)
    plain, before = model.answer(), walk.Model(case.tables, case.reply).answer()
    if before.told != "refused=22" and before != plain:
        return Judged(f"without R-2 {before.told}\nwith R-2 {plain.told}", kind_of(plain))
    return beside_the_crate(model, plain, crate)


def asked_of_pairs(cases):
    """All replies to get-value judged by their images, to which the second reading has to give the same answer."""
    images = [image(case) for case in cases]
    found = asked(images)
    for place, (case, model) in enumerate(zip(cases, images)):
        if not unlawful(case.tables):
            one, other = answer_to(case, True), answer_to(model)
            if one != other:
                found[place] = Judged(f"a reply {one}\nits image {other}\nthe image: {model.reply!r}", one[0])
    return found


def answer_to(case, values=False):
    """The second reading's answer and its need."""
    answer = walk.Model(case.tables, case.reply, values, worked=True).answer()
    return answer.told, answer.need


def cases_of(found):
    """Listed cases in full."""
    return [Case(listings.tables(rows).encode(), reply.encode()) for rows, reply, _ in found]


def unlike(found, rooms="L"):
    """Those of listed cases to which the second reading gives another answer, in the rooms in which vectors are replayed."""
    for case, (rows, reply, wanted) in zip(cases_of(found), found):
        got = short(told(vectors.printed(vectors.case(rooms, case.tables, case.reply), worked=True)))
        if got != wanted:
            yield f"{rows}\n  {reply[:2000]}\n  listed {wanted[:2000]}\n  found  {got[:2000]}"


def needing():
    """The listed needs that are others."""
    for case, (rows, model, wanted) in zip(cases_of(operators.NEEDS), operators.NEEDS):
        need = answer_to(case)[1]
        if need != len(f"vars=1\nfuns=0\nvar=x\nsort=1\nvalue={wanted}\n"):
            yield f"{rows}\n  {model}\n  the need is that of {wanted}; found {need}"


def all_models():
    """The vectors, and the operators' tables in every notation, each once."""
    return list(dict.fromkeys([*operators.vectors(), *operators.worked_tables()]))


def listed():
    """The second reading's answers to the listed cases; gives back how many are not the listed ones."""
    models, pairs = all_models(), operators.pairs()
    wrong = [*unlike(models), *unlike(pairs, "l"), *needing()]
    print(f"listed operators: {len(models)} models, {len(pairs)} replies to get-value and {len(operators.NEEDS)} needs; wrong: {len(wrong)}")
    for one in wrong[:SHOWN]:
        print(one)
    return len(wrong)


def batch(numbers):
    """The tallies of one batch of drawn models and of replies."""
    seed, place, size = numbers
    rng = random.Random(f"{seed} operators {place}")
    drawn = [Case(*operators.random_case(rng)) for _ in range(size)]
    replies = [Case(*operators.random_reply(rng)) for _ in range(size)]
    return roomy(lambda: (tallied(drawn, asked), tallied(replies, asked_of_pairs)))


def by_chance(pool, seed, count):
    tallies = Tally(), Tally()
    for some in pool.imap(batch, [(seed, place, min(BATCH, count - place)) for place in range(0, count, BATCH)]):
        for tally, more in zip(tallies, some):
            tally.take(more)
    return tallies


def main(pool):
    seed, count = ([int(given) for given in sys.argv[1:]] + [2026, 20_000][len(sys.argv) - 1:])[:2]
    wrong = listed()
    wrong += printed("listed operators", tallied(cases_of(all_models() + operators.NEEDS), asked), asked)
    wrong += printed("listed models and real replies, operators worked out", tallied(list(fixed()), asked), asked)
    found = cases_of(operators.pairs()) + given()
    wrong += printed("images of replies to get-value, operators worked out", tallied(found, asked_of_pairs), asked_of_pairs)
    drawn, replies = by_chance(pool, seed, count)
    wrong += printed(f"models with operators of the seed {seed}", drawn, asked)
    wrong += printed(f"images of replies to get-value with operators of the seed {seed}", replies, asked_of_pairs)
    return 1 if wrong else 0


if __name__ == "__main__":
    # The workers are started before any thread.
    with Pool(WORKERS) as workers:
        with_room(lambda: main(workers))
