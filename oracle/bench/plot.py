"""The plot: MB/s of each reader by input, as bars on a logarithmic axis, and ns a byte by size and by arms, as lines."""

import math
from xml.sax.saxutils import escape

from report import amount, rate

WHO = [("crate", "#8c8c8c"), ("ours", "#1f6fb4"), ("plain", "#e08a1e")]
NAMES = {"crate": "the crate", "ours": "ours, buffers used before", "plain": "plain C without checks, the limit"}
WIDTH, LEFT, RIGHT = 900, 290, 60
BAR_HEIGHT, GAP = 9, 9
SPAN = WIDTH - LEFT - RIGHT


def text(x, y, words, anchor="start", size=12, weight="normal"):
    return (f'<text x="{x:.1f}" y="{y:.1f}" text-anchor="{anchor}" font-size="{size}" font-weight="{weight}">'
            f"{escape(words)}</text>")


def line(x1, y1, x2, y2, colour="#d8d8d8", width=1):
    return f'<line x1="{x1:.1f}" y1="{y1:.1f}" x2="{x2:.1f}" y2="{y2:.1f}" stroke="{colour}" stroke-width="{width}"/>'


def legend(y):
    parts, x = [], LEFT
    for who, colour in WHO:
        parts += [f'<rect x="{x}" y="{y - 9}" width="12" height="10" fill="{colour}"/>', text(x + 17, y, NAMES[who])]
        x += 40 + 6.3 * len(NAMES[who])
    return parts


def short(name):
    """A row's name, cut where the file's begins."""
    return name.split(": ")[0].replace("`", "")


def bars(rows, top):
    """The bars, and where they end."""
    rates = [[rate(row.size, getattr(row, who)) for who, _ in WHO] for row in rows]
    low = math.floor(math.log10(min(map(min, rates))))
    high = math.ceil(math.log10(max(map(max, rates))))
    place = lambda value: LEFT + SPAN * (math.log10(value) - low) / (high - low)
    step = len(WHO) * BAR_HEIGHT + GAP
    bottom = top + len(rows) * step
    parts = []
    for power in range(low, high + 1):
        x = place(10 ** power)
        parts += [line(x, top - 4, x, bottom), text(x, bottom + 14, f"{10 ** power:,}", "middle")]
    parts.append(text(LEFT + SPAN / 2, bottom + 32, "MB/s (logarithmic)", "middle"))
    for at, (row, values) in enumerate(zip(rows, rates)):
        y = top + at * step
        parts.append(text(LEFT - 8, y + 1.9 * BAR_HEIGHT, short(row.name), "end"))
        for (_, colour), value in zip(WHO, values):
            end = place(value)
            parts.append(f'<rect x="{LEFT}" y="{y}" width="{end - LEFT:.1f}" height="{BAR_HEIGHT - 1}" fill="{colour}"/>')
            parts.append(text(end + 3, y + BAR_HEIGHT - 1.5, amount(value), size=9))
            y += BAR_HEIGHT
    return parts, bottom + 32


def lines(rows, top, readers=WHO, height=170):
    """The lines of growth, and where they end."""
    most = max(getattr(row, who) / row.size for row in rows for who, _ in readers) * 1.1
    bottom = top + height
    across = lambda row: LEFT + SPAN * math.log2(row.size / rows[0].size) / math.log2(rows[-1].size / rows[0].size)
    up = lambda value: bottom - height * value / most
    step = 10 ** math.floor(math.log10(most))
    step = step if most / step >= 3 else step / 4
    parts = []
    for mark in range(int(most / step) + 1):
        parts += [line(LEFT, up(mark * step), LEFT + SPAN, up(mark * step)),
                  text(LEFT - 8, up(mark * step) + 4, f"{mark * step:g}", "end")]
    for row in rows:
        parts.append(text(across(row), bottom + 16, row.name, "middle"))
    for who, colour in readers:
        points = [(across(row), up(getattr(row, who) / row.size)) for row in rows]
        joined = " ".join(f"{x:.1f},{y:.1f}" for x, y in points)
        parts.append(f'<polyline points="{joined}" fill="none" stroke="{colour}" stroke-width="2"/>')
        parts += [f'<circle cx="{x:.1f}" cy="{y:.1f}" r="3" fill="{colour}"/>' for x, y in points]
        parts.append(text(points[-1][0] + 8, points[-1][1] + 4, f"{getattr(rows[-1], who) / rows[-1].size:.1f}", size=11))
    parts.append(text(20, top + height / 2, "ns a byte, by size of the input"))
    return parts, bottom + 16


def drawing(results):
    parts = [text(20, 26, "Reading S-expressions: MB/s by input", size=16, weight="bold"), *legend(50)]
    body, y = bars(results.readings, 70)
    parts += body
    y += 40
    parts.append(text(20, y, "How time grows from 1 to 16 MiB", size=16, weight="bold"))
    body, y = lines(results.growth, y + 20)
    parts += body
    y += 40
    parts.append(text(20, y, "Reading and listing a function, arms in random order, by their number", size=16, weight="bold"))
    body, y = lines([row._replace(name=f"{int(row.name):,}") for row in results.arms["random"]], y + 20, WHO[:2])
    parts += body
    height = y + 20
    return "\n".join([
        f'<svg xmlns="http://www.w3.org/2000/svg" width="{WIDTH}" height="{height:.0f}" viewBox="0 0 {WIDTH} {height:.0f}"'
        ' font-family="sans-serif" font-size="12" fill="#222">',
        f'<rect width="{WIDTH}" height="{height:.0f}" fill="#fff"/>', *parts, "</svg>", ""])
