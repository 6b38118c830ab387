#!/usr/bin/env python3
"""Draws a bar chart (SVG) from the markdown table that the benchmark prints.

    bench > bench.md
    tools/plot.py bench.md bench.svg

Each row has a bar for the ratio of the library's time to that of the plain implementation, on a
scale on which every doubling has the same length. Bars to the right of the line at 1 say that the
library is slower, bars to the left that it is faster.
"""

import html
import math
import sys

ROW = 26
LEFT = 300
RIGHT = 190
TOP = 62
SCALE = 420


def read(text):
    """The machine, the date, what was run and the rows (name, library, plain, ratio) of the output."""
    facts, rows = {}, []
    for line in text.splitlines():
        name, colon, value = line.partition(": ")
        if colon and name in ("machine", "date", "sides"):
            facts[name] = value
        cells = [cell.strip() for cell in line.strip().strip("|").split("|")]
        if len(cells) == 4:
            try:
                rows.append((cells[0], *map(float, cells[1:])))
            except ValueError:
                pass  # the head of the table, or the rule under it
    return facts, rows


def scale_of(rows):
    """The powers of two between which all ratios lie, and 1 with them."""
    logs = [math.log2(max(ratio, 1e-6)) for *_, ratio in rows] + [0.0]
    low, high = math.floor(min(logs)), math.ceil(max(logs))
    return (low, high) if high > low else (low, low + 1)


def label(power):
    """The text of a mark of the scale."""
    return f"{2 ** power:g}" if power >= 0 else f"1/{2 ** -power:g}"


def draw(facts, rows):
    """The text of the picture."""
    low, high = scale_of(rows)

    def place(ratio):
        return LEFT + SCALE * (math.log2(max(ratio, 1e-6)) - low) / (high - low)

    height = TOP + ROW * len(rows) + 24
    parts = [
        f'<svg xmlns="http://www.w3.org/2000/svg" width="{LEFT + SCALE + RIGHT}" height="{height}" '
        'font-family="sans-serif" font-size="12">',
        '<rect width="100%" height="100%" fill="white"/>',
        '<text x="12" y="22" font-size="15">Time of the library as a multiple of the plain implementation</text>',
        f'<text x="12" y="42" fill="#555">{html.escape(", ".join(facts.values()))}</text>',
    ]
    for power in range(low, high + 1):
        x = place(2.0 ** power)
        color = "#333" if power == 0 else "#ddd"
        parts.append(f'<line x1="{x:.1f}" y1="{TOP}" x2="{x:.1f}" y2="{height - 22}" stroke="{color}"/>')
        parts.append(f'<text x="{x:.1f}" y="{height - 8}" text-anchor="middle" fill="#555">{label(power)}</text>')
    for number, (name, library, plain, ratio) in enumerate(rows):
        y = TOP + ROW * number
        start, end = sorted((place(1.0), place(ratio)))
        color = "#c0603a" if ratio > 1 else "#3a80b0"
        parts.append(f'<text x="{LEFT - 8}" y="{y + 17}" text-anchor="end">{html.escape(name)}</text>')
        parts.append(
            f'<rect x="{start:.1f}" y="{y + 5}" width="{max(end - start, 1):.1f}" height="{ROW - 9}" fill="{color}"/>'
        )
        parts.append(
            f'<text x="{LEFT + SCALE + 10}" y="{y + 17}">{ratio:.2f}'
            f'<tspan fill="#555"> ({library:g} / {plain:g} µs)</tspan></text>'
        )
    parts.append("</svg>")
    return "\n".join(parts) + "\n"


def main():
    if len(sys.argv) != 3:
        sys.exit("usage: plot.py bench.md bench.svg")
    with open(sys.argv[1], encoding="utf-8") as source:
        facts, rows = read(source.read())
    if not rows:
        sys.exit(f"{sys.argv[1]}: no rows")
    with open(sys.argv[2], "w", encoding="utf-8") as target:
        target.write(draw(facts, rows))


if __name__ == "__main__":
    main()
