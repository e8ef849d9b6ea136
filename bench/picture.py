#!/usr/bin/env python3
"""Draws how time grows with stars, lines and components, from the measured data.

usage: picture.py DATA OUT.svg

Same data, same picture. It has a background of its own, so that it can be read
on a light or a dark page.
"""
import math
import pathlib
import sys
from xml.sax.saxutils import escape

import tables

WIDTH, HEIGHT = 1080, 470
TOP, BOTTOM = 128, 392             # of every panel
PANEL, FIRST, STEP = 262, 74, 352  # a panel's width, the first one's left side, and from one to the next
# colour and mark of each worker
LOOKS = {"fidshore": ("#0b5fa5", "circle"), "git": ("#c0392b", "square"),
         "git-fixed": ("#d68910", "diamond"), "fnmatch": ("#5b6b73", "triangle")}
UNITS = ((1e9, "s"), (1e6, "ms"), (1e3, "us"), (1, "ns"))
OVER = 3e9                         # where a worker is drawn that had no answer in time


class Panel:
    """Two logarithmic axes; `series` are pairs of a table and a worker, the later drawn over the earlier."""

    def __init__(self, number, title, beside, below, series, xs):
        self.left, self.title, self.beside, self.below = FIRST + number * STEP, title, beside, below
        self.series, self.xs, self.powers = series, xs, range(0)

    def reach(self, cells):
        """The powers of ten that hold all times of the panel."""
        times = [ns or OVER for (table, _, worker), (ns, _) in cells.items() if (table, worker) in self.series]
        self.powers = range(math.floor(math.log10(min(times))), math.ceil(math.log10(max(times))) + 1)

    def x(self, value):
        low, high = math.log(self.xs[0]), math.log(self.xs[-1])
        return self.left + 12 + (PANEL - 24) * (math.log(value) - low) / (high - low)

    def y(self, ns):
        low, high = self.powers[0], self.powers[-1]
        return BOTTOM - (BOTTOM - TOP) * (math.log10(ns) - low) / (high - low)


PANELS = [
    Panel(0, "Stars", "time a call", "stars k in the pattern `*a` x k, text of 128 bytes",
          [("stars", name) for name in reversed(LOOKS)], (1, 2, 4, 8, 16, 32, 64)),
    Panel(1, "Lines", "time a question", "lines of rules, 1,000 paths",
          [("attribute", "git"), ("ignore", "fnmatch"), ("ignore", "git"), ("attribute", "fidshore"), ("ignore", "fidshore")],
          (10, 30, 100, 300, 1000, 3000)),
    Panel(2, "Components", "time a question", "components of the path, 100 lines",
          [("components", "fnmatch"), ("components", "git"), ("components", "fidshore")], (1, 2, 4, 8, 16, 32, 64)),
]


def text(x, y, words, anchor="middle", more=""):
    return f'<text x="{x:.1f}" y="{y:.1f}" text-anchor="{anchor}"{more}>{escape(words)}</text>'


def line(x1, y1, x2, y2, look):
    return f'<line x1="{x1:.1f}" y1="{y1:.1f}" x2="{x2:.1f}" y2="{y2:.1f}" {look}/>'


def mark(x, y, worker, hollow=False):
    colour, shape = LOOKS[worker]
    corners = {"square": ((-4, -4), (4, -4), (4, 4), (-4, 4)), "diamond": ((0, -5.5), (5.5, 0), (0, 5.5), (-5.5, 0)),
               "triangle": ((0, -5), (5, 4), (-5, 4))}
    fill = f'fill="{"#ffffff" if hollow else colour}" stroke="{colour}" stroke-width="1.5"'
    if shape == "circle":
        return f'<circle cx="{x:.1f}" cy="{y:.1f}" r="4" {fill}/>'
    points = " ".join(f"{x + dx:.1f},{y + dy:.1f}" for dx, dy in corners[shape])
    return f'<polygon points="{points}" {fill}/>'


def unit(ns):
    size, name = next((size, name) for size, name in UNITS if ns >= size)
    return f"{ns / size:g} {name}"


def axes(panel):
    """The frame, the grid with its numbers, and what is on the axes."""
    left, right, side = panel.left, panel.left + PANEL, (TOP + BOTTOM) / 2
    out = [f'<rect x="{left}" y="{TOP}" width="{PANEL}" height="{BOTTOM - TOP}" fill="#ffffff" stroke="#9aa5ab"/>',
           text((left + right) / 2, TOP - 12, panel.title, more=' font-size="15" font-weight="bold"'),
           text((left + right) / 2, BOTTOM + 40, panel.below),
           text(left - 58, side, panel.beside, more=f' transform="rotate(-90 {left - 58} {side:.0f})"')]
    for power in panel.powers:
        y = panel.y(10 ** power)
        out += [line(left, y, right, y, 'stroke="#e3e8ea"'), text(left - 6, y + 4, unit(10 ** power), "end")]
    for value in panel.xs:
        x = panel.x(value)
        out += [line(x, TOP, x, BOTTOM, 'stroke="#e3e8ea"'), text(x, BOTTOM + 18, f"{value:,}")]
    return out


def curve(panel, cells, table, worker):
    """A line through the medians; one that had no answer in time ends, hollow, where it was given up."""
    found = sorted((int(column), ns) for (t, column, w), (ns, _) in cells.items() if (t, w) == (table, worker))
    points = [(panel.x(n), panel.y(ns)) for n, ns in found if ns]
    if not points:
        return []
    dashes = ' stroke-dasharray="6 4"' if table == "attribute" else ""
    look = f'stroke="{LOOKS[worker][0]}" stroke-width="2"'
    path = " ".join(f"{x:.1f},{y:.1f}" for x, y in points)
    out = [f'<polyline points="{path}" fill="none" {look}{dashes}/>']
    for n in (n for n, ns in found if ns is None):
        x, y = panel.x(n), panel.y(OVER)
        out += [line(*points[-1], x, y, look + ' stroke-dasharray="2 3"'), mark(x, y, worker, hollow=True),
                text(x + 10, y + 4, f"no answer in 3 s at {n}", "start", f' fill="{LOOKS[worker][0]}"')]
    return out + [mark(x, y, worker, dashes != "") for x, y in points]


def legend(names):
    """The workers, and below them what is dashed."""
    out, x = [], FIRST
    for worker, name in names.items():
        out += [line(x, 60, x + 34, 60, f'stroke="{LOOKS[worker][0]}" stroke-width="2"'), mark(x + 17, 60, worker),
                text(x + 42, 64, name, "start")]
        x += 42 + 7.2 * len(name) + 26
    out.append(text(FIRST, 88, "Lines: full = ignore question, dashed and hollow = attribute question. fnmatch in Lines and Components: "
                               "a plain loop over it, not the whole question.", "start"))
    return out


def picture(about, cells):
    names = tables.labels(about, "stars")
    present = {worker: names[worker] for worker in LOOKS if any(key[2] == worker for key in cells)}
    out = [f'<svg xmlns="http://www.w3.org/2000/svg" viewBox="0 0 {WIDTH} {HEIGHT}" width="{WIDTH}" height="{HEIGHT}" '
           'font-family="DejaVu Sans, Verdana, sans-serif" font-size="12" fill="#222c31" role="img">',
           "<title>How time grows with stars, lines and components</title>",
           f'<rect width="{WIDTH}" height="{HEIGHT}" rx="8" fill="#f7f9fa" stroke="#c8d0d4"/>',
           text(FIRST, 34, "Processor time, medians of one run; both axes logarithmic", "start", ' font-size="16" font-weight="bold"')]
    out += legend(present)
    for panel in PANELS:
        panel.reach(cells)
        out += axes(panel)
        for table, worker in panel.series:
            out += curve(panel, cells, table, worker)
    for words in about.get("left out", []):
        out.append(text(FIRST, HEIGHT - 12, f"Left out: {words}", "start"))
    return "\n".join(out + ["</svg>", ""])


def main():
    about, cells = tables.read(pathlib.Path(sys.argv[1]))
    pathlib.Path(sys.argv[2]).write_text(picture(about, cells))


main()
