#!/usr/bin/env python3
"""Draws the plot of docs/SPEED.md, docs/speed.svg, from the numbers in docs/speed.csv, and prints the page's first tables: the
rows of the fewest and of the most slices, of which the page shows some.

    plot.py [NUMBERS [PICTURE]]
"""

import csv
import math
import pathlib
import sys

DOCS = pathlib.Path(__file__).resolve().parent.parent.parent / "docs"
COLOURS = ["#1b6ca8", "#2e8b57", "#c77700", "#a83232", "#6a3d9a"]
PANELS = [
    ("check, seconds", "check_s", 0.01),
    ("prove, seconds", "prove_s", 0.01),
    ("check, MB", "check_mb", 1),
    ("prove, MB", "prove_mb", 1),
]
WIDTH, HEIGHT, LEFT, TOP, GAP = 300, 220, 60, 40, 90


def read(name):
    """The lines of numbers, ordered by codes and slices."""
    with open(name, newline="") as file:
        rows = [{key: float(value) if value else None for key, value in row.items()} for row in csv.DictReader(file)]
    return sorted(rows, key=lambda row: (row["codes"], row["slices"]))


def tens(low, high):
    """The powers of ten that hold all values between them."""
    return math.floor(math.log10(low)), math.ceil(math.log10(high))


def text(x, y, words, more=""):
    return f'<text x="{x:.0f}" y="{y:.0f}" {more}>{words}</text>'


def panel(rows, title, key, floor, left, top):
    """One picture: a line for each number of slices, over the codes, both axes by powers."""
    codes = sorted({row["codes"] for row in rows})
    slices = sorted({row["slices"] for row in rows})
    values = [max(row[key], floor) for row in rows]
    low, high = tens(min(values), max(values))
    across = lambda n: left + WIDTH * math.log(n / codes[0]) / math.log(codes[-1] / codes[0])
    up = lambda v: top + HEIGHT * (1 - (math.log10(max(v, floor)) - low) / (high - low))
    out = [text(left, top - 14, title, 'font-weight="bold"')]
    out.append(f'<rect x="{left}" y="{top}" width="{WIDTH}" height="{HEIGHT}" fill="none" stroke="#888"/>')
    for power in range(low, high + 1):
        y = up(10.0**power)
        out.append(f'<path d="M{left} {y:.1f}h{WIDTH}" stroke="#ddd"/>')
        out.append(text(left - 6, y + 4, f"{10.0**power:g}", 'text-anchor="end"'))
    for n in codes:
        out.append(text(across(n), top + HEIGHT + 18, f"{n:,.0f}", 'text-anchor="middle"'))
    out.append(text(left + WIDTH / 2, top + HEIGHT + 36, "codes", 'text-anchor="middle"'))
    ends = []
    for colour, count in zip(COLOURS, slices):
        line = [(across(row["codes"]), up(row[key])) for row in rows if row["slices"] == count]
        points = " ".join(f"{x:.1f},{y:.1f}" for x, y in line)
        out.append(f'<polyline points="{points}" fill="none" stroke="{colour}" stroke-width="2"/>')
        out += [f'<circle cx="{x:.1f}" cy="{y:.1f}" r="3" fill="{colour}"/>' for x, y in line]
        ends.append((line[-1][1], colour, count))
    below = top
    for y, colour, count in sorted(ends):
        below = max(y + 4, below + 12)
        out.append(text(left + WIDTH + 8, below, f"{count:.0f}", f'fill="{colour}"'))
    return out


def picture(rows):
    """The whole plot."""
    wide, tall = 2 * (LEFT + WIDTH + GAP) - 20, 2 * (TOP + HEIGHT + 50) + 20
    out = [f'<svg xmlns="http://www.w3.org/2000/svg" viewBox="0 0 {wide} {tall}" font-family="sans-serif" font-size="12">']
    out.append(f'<rect width="{wide}" height="{tall}" fill="white"/>')
    for n, (title, key, floor) in enumerate(PANELS):
        left = LEFT + (n % 2) * (WIDTH + LEFT + GAP - 20)
        out += panel(rows, title, key, floor, left, TOP + (n // 2) * (HEIGHT + TOP + 50))
    out.append(text(wide - 8, tall - 8, "the number at the end of a line: slices", 'text-anchor="end" fill="#555"'))
    return "\n".join(out + ["</svg>"]) + "\n"


def shown(value):
    """A number as the tables show it."""
    if value is None:
        return "-"
    if value < 0.005:
        return "< 0.01"
    return f"{value:,.0f}" if value >= 100 else f"{value:.1f}" if value >= 10 else f"{value:.2f}"


def table(rows, columns):
    """A table of the page: pairs of a heading and the name of a number."""
    out = ["| " + " | ".join(head for head, *_ in columns) + " |", "|" + "---|" * len(columns)]
    for row in rows:
        cells = [f"{row[name]:,.0f}" if whole else shown(row[name]) for _, name, whole in columns]
        out.append("| " + " | ".join(cells) + " |")
    return "\n".join(out)


if __name__ == "__main__":
    words = sys.argv[1:]
    rows = read(words[0] if words else DOCS / "speed.csv")
    pathlib.Path(words[1] if words[1:] else DOCS / "speed.svg").write_text(picture(rows))
    counts = {row["slices"] for row in rows}
    rows = [row for row in rows if row["slices"] in (min(counts), max(counts))]
    size = [("Codes", "codes", True), ("Slices", "slices", True)]
    print(table(rows, size + [("Variants", "variants", True), ("Questions", "questions", True),
        ("`check` s", "check_s", False), ("MB", "check_mb", False), ("`prove` s", "prove_s", False),
        ("certificate MB", "cert_mb", False), ("`verify` s", "verify_s", False), ("MB", "verify_mb", False)]))
    print()
    print(table(rows, size + [("Book KB", "kb", True), ("`order`, million instructions", "order_mi", True), ("MB", "order_mb", False),
        ("release s", "desk_release_s", False), ("MB", "desk_release_mb", False), ("an order ms", "desk_order_ms", False),
        ("a start s", "desk_start_s", False), ("MB", "desk_start_mb", False)]))
