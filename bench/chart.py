#!/usr/bin/env python3
"""Draws the processor times of a Markdown table as an SVG chart: chart.py [FILE] >docs/bench.svg

FILE is docs/performance.md or a table that bench/run.sh prints; without it, standard input is read. The first table whose cells begin
with a time (`0.045 s, ..`) is drawn: a group of bars for each column, a bar for each row. The colors can be read on a light and
on a dark page.
"""

import re
import sys
from html import escape

LABELS, BARS, ROW, GAP = 330, 360, 24, 40
TEXT, OURS, OTHERS = "#768390", "#2f81f7", "#8b949e"


def table(text):
    """The columns of the first table of times: the name, and (label, seconds) for each row."""
    rows = [[cell.strip().replace("`", "") for cell in line.strip("|\n").split("|")] for line in text if line.startswith("|")]
    timed = [at for at, row in enumerate(rows) if any(re.match(r"[\d.]+ s\b", cell) for cell in row[1:])]
    if not timed:
        sys.exit("there is no table of times")
    head = rows[timed[0] - 2]
    body = [rows[at] for at in timed if len(rows[at]) == len(head)]
    return [(name, [(row[0], float(row[at].split()[0])) for row in body if row[at]]) for at, name in enumerate(head) if name]


def text(x, y, words, extra=""):
    return f'<text x="{x}" y="{y}"{extra}>{escape(words)}</text>'


def chart(columns):
    """The lines of the SVG."""
    scale = BARS / max(seconds for _, bars in columns for _, seconds in bars)
    lines, y = [], 20
    for name, bars in columns:
        lines.append(text(0, y, f"{name}: processor time, seconds", ' font-weight="bold"'))
        for label, seconds in bars:
            y += ROW
            color = OURS if label.startswith("kconf,") else OTHERS
            width = round(seconds * scale, 1)
            lines.append(text(LABELS - 8, y + 4, label, ' text-anchor="end"'))
            lines.append(f'<rect x="{LABELS}" y="{y - 9}" width="{width}" height="16" rx="2" fill="{color}"/>')
            lines.append(text(round(LABELS + width + 6, 1), y + 4, f"{seconds:.3f}"))
        y += GAP
    width, height = LABELS + BARS + 60, y - GAP + 16
    said = "; ".join(f"{name}: " + ", ".join(f"{label} {seconds:.3f} s" for label, seconds in bars) for name, bars in columns)
    return [
        f'<svg xmlns="http://www.w3.org/2000/svg" viewBox="0 0 {width} {height}" width="{width}" height="{height}" role="img">',
        f"<title>Processor time of one run. {escape(said)}</title>",
        f'<g font-family="sans-serif" font-size="13" fill="{TEXT}">',
        *lines,
        "</g>",
        "</svg>",
    ]


def main():
    if len(sys.argv) > 1:
        with open(sys.argv[1], encoding="utf-8") as file:
            columns = table(file)
    else:
        columns = table(sys.stdin)
    print(*chart(columns), sep="\n")


if __name__ == "__main__":
    main()
