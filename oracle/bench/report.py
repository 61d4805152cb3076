"""The measurements as a document: every number and every verdict in it follows from one run."""

from pathlib import Path
from typing import NamedTuple

TEMPLATE = Path(__file__).with_name("template.md")
# The bar of the reader, and of reading and listing: so many times the crate on the real replies.
BAR = 3
ORDERS = ("random", "sorted", "reversed")


class Reading(NamedTuple):
    """Nanoseconds a reading: the crate's, ours in buffers used before and in cleared ones, plain C's."""
    name: str
    size: int
    nodes: int
    crate: float
    ours: float
    cleared: float
    plain: float


class Listing(NamedTuple):
    """Nanoseconds a model: the crate's, ours in buffers used before and in cleared ones; then the parts, the crate's three and ours."""
    name: str
    size: int
    nodes: int
    listing: int
    crate: float
    ours: float
    cleared: float
    maps: float
    crate_reading: float
    decoding: float
    reading: float
    listed: float
    tables: float
    arena: float


def rate(size, time):
    """MB/s: bytes a nanosecond are thousands of them."""
    return 1e3 * size / time


class Results:
    """What the program printed, by part."""

    def __init__(self, lines):
        parts = {}
        for part, *fields in lines:
            parts.setdefault(part, []).append(fields)
        readings = {part: [Reading(row[0], int(row[1]), int(row[2]), *map(float, row[3:])) for row in parts[part]]
                    for part in ("real", "all", "made", "growth")}
        self.rounds, self.sample = map(int, parts["plan"][0])
        self.growth = readings["growth"]
        self.all = readings["all"][0]
        largest = self.growth[-1]
        self.readings = (readings["real"] + [self.all, largest._replace(name="commands of the 45 kB reply, " + largest.name)]
                         + readings["made"])
        self.real = readings["real"]
        self.check, self.script, self.lookups = parts["check"][0], parts["script"], parts["lookup"]
        listings = {part: [Listing(row[0], *map(int, row[1:4]), *map(float, row[4:])) for row in parts[part]]
                    for part in ("listed", *ORDERS, "sets", "full")}
        self.arms = {order: listings[order] for order in ORDERS}
        *self.listed, self.listed_all = listings["listed"]
        self.listings = (listings["listed"]
                         + [one._replace(name=f"{int(one.name):,} arms, {order}") for order in ORDERS for one in self.arms[order]]
                         + [one._replace(name=f"{int(one.name):,} members in balanced unions") for one in listings["sets"]]
                         + [one._replace(name=f"full tables, names of {one.name} bytes") for one in listings["full"]])


def table(head, rows):
    """A Markdown table."""
    lines = ["| " + " | ".join(row) + " |" for row in [head] + rows]
    lines.insert(1, "|" + "---|" * len(head))
    return "\n".join(lines)


def amount(number):
    """Three digits that count, with commas for thousands."""
    return f"{number:,.0f}" if 100 <= number else f"{number:.1f}" if 10 <= number else f"{number:.2f}"


def readings(results):
    rows = []
    for one in results.readings:
        rates = [amount(rate(one.size, time)) for time in (one.crate, one.ours, one.cleared, one.plain)]
        rows.append([one.name, f"{one.size:,}", f"{one.nodes:,}", *rates, f"{one.crate / one.ours:.2f}",
                     f"{one.plain / one.ours:.2f}"])
    return table(["input", "bytes", "nodes", "crate, MB/s", "ours, MB/s", "ours, cleared first, MB/s", "plain C, MB/s",
                  "ours to crate, times", "ours to plain C, times"], rows)


def growth(results):
    rows = []
    for one in results.growth:
        cells = [cell for time in (one.crate, one.ours, one.cleared, one.plain)
                 for cell in (amount(time / 1e6), f"{time / one.size:.2f}")]
        rows.append([one.name, *cells])
    head = [f"{who}, {unit}" for who in ("crate", "ours", "ours, cleared first", "plain C") for unit in ("ms", "ns a byte")]
    return table(["input", *head], rows)


def check(results):
    name, size, nodes, arena, time = results.check[0], *map(float, results.check[1:])
    row = [name, f"{size:,.0f}", f"{nodes:,.0f}", f"{arena:,.0f}", f"{time / 1e6:.2f}", amount(rate(size, time)),
           amount(rate(arena, time)), f"{time / nodes:.1f}"]
    return table(["arena", "bytes of its input", "nodes", "bytes of words and text", "ms", "MB/s of the input",
                  "MB/s of words and text", "ns a node"], [row])


def script(results):
    rows = []
    for name, size, lines, crate, ours in results.script:
        rates = [amount(rate(float(size), float(time))) for time in (crate, ours)]
        rows.append([name, f"{int(size):,}", lines, *rates, f"{float(crate) / float(ours):.2f}"])
    return table(["lines", "bytes", "lines", "crate, MB/s", "ours, MB/s", "ours to crate, times"], rows)


def lookups(results):
    rows = []
    for name, count, *times in results.lookups:
        checked, asked, filled, found = map(float, times)
        rows.append([name, f"{checked / 1e3:.0f} us", f"{asked / int(count):.0f} ns", f"{filled / 1e3:.0f} us", f"{found / int(count):.0f} ns"])
    return table(["names", "check of 25", "a name, ours", "BTreeMap filled", "a name, the map"], rows)


def micro(*times):
    """Nanoseconds as microseconds."""
    return [amount(time / 1e3) for time in times]


def listings(results):
    rows = [[one.name, f"{one.size:,}", f"{one.listing:,}", *micro(one.crate, one.ours, one.cleared),
             f"{one.crate / one.ours:.2f}", f"{one.crate / one.cleared:.2f}"] for one in results.listings]
    return table(["model", "bytes", "bytes of the listing", "crate, us", "ours, us", "ours, cleared first, us",
                  "ours to crate, times", "cleared first, times"], rows)


def apart(results):
    rows = [[one.name, *micro(one.maps, one.crate_reading, one.decoding, one.reading, one.listed, one.tables, one.arena)]
            for one in results.listings]
    return table(["model", "crate: maps, us", "reading, us", "decoding, us", "ours: reading, us", "listing with its checks, us",
                  "of it the check of 25, us", "of it the check of 27, us"], rows)


def grown_arms(results):
    rows = []
    for order, (first, *_, last) in results.arms.items():
        times = [f"{getattr(last, who) / getattr(first, who):.0f}" for who in ("crate", "ours", "cleared", "reading", "listed")]
        rows.append([f"{order}, from {int(first.name):,} to {int(last.name):,} arms", f"{int(last.name) // int(first.name)}", *times])
    return table(["order", "arms, times", "crate, times as long", "ours", "ours, cleared first", "our reading alone",
                  "our listing alone"], rows)


def verdict_listed(results):
    """Whether the two bars of reading and listing are met, as measured."""
    whole = results.listed_all
    times = whole.crate / whole.ours
    said = "met" if BAR <= times else "not met"
    single = ", ".join(f"{one.crate / one.ours:.2f}" for one in results.listed)
    arms = [one for rows in results.arms.values() for one in rows]
    slower = [one.name for one in results.listings if "arms" in one.name and one.crate < one.ours]
    least = min(one.crate / one.ours for one in arms)
    second = (f"**not met**: ours is slower at {'; '.join(slower)}" if slower else
              f"**met**: at the least ours is {least:.2f} times as fast")
    return (f"Reading and listing together, the crate's maps and our checks among them: the bar is {BAR} times the crate on the real "
            f"replies. **It is {said}**: {whole.name} take ours {amount(whole.ours / 1e6)} ms and the crate "
            f"{amount(whole.crate / 1e6)} ms, {times:.2f} times. On document 01's sample and the single replies below, in their order: {single} times. The second bar, no number of "
            f"arms up to {max(int(one.name) for one in arms):,} at which ours is slower, is {second}.")


def verdict(results):
    """Whether the bar is met, as measured."""
    whole = results.all
    times = whole.crate / whole.ours
    said = "met" if BAR <= times else "not met"
    single = ", ".join(f"{one.crate / one.ours:.2f}" for one in results.real)
    return (f"The bar is {BAR} times the crate on the real replies, in one run. **It is {said}**: on {whole.name} together ours "
            f"reads {amount(rate(whole.size, whole.ours))} MB/s and the crate {amount(rate(whole.size, whole.crate))} MB/s, "
            f"{times:.2f} times. On document 01's sample and the single replies below, in their order: {single} times.")


def document(results, machine, picture):
    first, last = results.growth[0], results.growth[-1]
    return TEMPLATE.read_text(encoding="utf-8").format(
        picture=picture, verdict=verdict(results), rounds=results.rounds, sample=results.sample,
        machine=table(["what", "which"], [list(row) for row in machine]),
        readings=readings(results), growth=growth(results), check=check(results), script=script(results),
        lookups=lookups(results), verdict_listed=verdict_listed(results), listings=listings(results), apart=apart(results),
        grown_arms=grown_arms(results),
        grown=f"{last.ours / first.ours:.1f}", larger=f"{last.size // first.size}", crate_grown=f"{last.crate / first.crate:.1f}")
