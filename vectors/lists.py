"""Where each list stands: it is the stdin and stdout of the program with which the gate replays it.

The list of listings has document 01's answers, of several lines each; the crate's stand in DIFFER where they are others.
"""

from pathlib import Path

HERE = Path(__file__).resolve().parent
CRATES = HERE.parent / "crates"
REPLAYED = {name: (CRATES / program / "stdin", CRATES / program / "stdout")
            for name, program in (
                ("strings", "replay_leaves"), ("trees", "replay_trees"), ("tables", "replay_tables"), ("lines", "replay_lines"),
                ("listings", "replay_listings"))}
DIFFER = HERE / "listings" / "differ.out"
# Refusals that the crate knows nothing of: it is not asked for these.
OURS = (9, 10, 11, 12, 25, 26, 27)


def files(name):
    """The two files of a list: cases and answers."""
    return REPLAYED[name]


def rows(path):
    return path.read_text().split("\n")[:-1]


def asked(case):
    """A case of the listings in the oracle's form."""
    return " ".join(field.strip("-") for field in case.split(" ")[1:])


def told(printed):
    """What is printed for a listing or a refusal, in the oracle's form."""
    if printed.startswith(b"refused="):
        return printed.split(b"\n")[0].decode()
    return "listing=" + printed[:printed.rindex(b"need=")].hex()


def is_asked(case, printed):
    """Whether the crate is asked for a listing: not for replies to get-value, whose letter is small, nor where a number of OURS is printed."""
    return case[0].isupper() and told(printed) not in [f"refused={number}" for number in OURS]


def read_listings():
    """The cases that the crate is asked for, and its answers."""
    cases, answers = files("listings")
    differ = dict(row.split(" ", 1) for row in rows(DIFFER))
    found = []
    for place, (case, printed) in enumerate(zip(rows(cases), answers.read_bytes().split(b"\n\n")), 1):
        if is_asked(case, printed):
            found.append((asked(case), differ.get(str(place), told(printed))))
    return [case for case, _ in found], [answer for _, answer in found]


def read(name):
    """The cases and the crate's answers; cases with a capital letter before them are our own and have no Rust, but for listings."""
    if name == "listings":
        return read_listings()
    pairs = zip(*map(rows, files(name)))
    kept = [(case, answer) for case, answer in pairs if not case[:1].isupper()]
    return [case for case, _ in kept], [answer for _, answer in kept]
