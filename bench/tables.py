#!/usr/bin/env python3
"""Prints the measured times as markdown tables.

usage: tables.py DATA [DOCUMENT]

Each cell is a median and, in brackets, its ratio to the fastest peer of the
column that gave the same answers. In DOCUMENT the text between the lines
`<!-- bench NAME -->` and `<!-- end -->` is replaced by the table of that name.
"""
import math
import pathlib
import re
import sys

OURS, PATIENCE = "fidshore", "3 s"
PEERS = ("git", "git-fixed", "fnmatch", "git-program")
WORKERS = PEERS + (OURS, "whichline")
QUESTIONS = ("ignore", "open", "attribute", "components")
LINES = {"10": "10", "100": "100", "1000": "1,000", "3000": "3,000"}
# name: what is measured, and the columns that are printed
TABLES = {
    "rows": ("The numbered rows of 001, path mode, a call",
             {"all": "all 190 rows", "quick": "without row 148", "alike": "rows that fnmatch answers alike"}),
    "stars": ("`*a` x k on 127 `a` and `b`, path mode, by k", {k: k for k in ("1", "2", "4", "8", "16", "32", "64")}),
    "crossing": ("`**/a/` x k and `b` on `a/` x 30 and `c`, by k", {k: k for k in ("1", "2", "4", "8", "16", "29")}),
    "limits": ("At the limits of pattern and text: 2,048 and 4,096 bytes",
               {"stars": "`*a` x 1,024", "dirs": "`**/a/` x 409", "class": "`*[ab]` x 409"}),
    "ignore": ("The ignore question, rules read each time, 1,000 paths, by lines of rules", LINES),
    "open": ("The same, each line ending in a wildcard", {k: v for k, v in LINES.items() if k != "3000"}),
    "attribute": ("The attribute question, the same way", LINES),
    "components": ("The ignore question, 100 lines, by components of the path", {k: k for k in ("1", "4", "16", "64")}),
    "listing": ("A listing of 200,000 paths, rules read once by git, the whole command, by lines of rules",
                {f"{question}-{k}": words for question in ("ignore", "attribute") for k, words in
                 {"10": f"{question}, 10", "100": "100", "1000": "1,000", "names": "1,000 names"}.items()}),
}


def read(path):
    """What the data says of the run, and its cells by table, column and worker."""
    about, cells = {}, {}
    for line in path.read_text().split("\n"):
        fields = line.split("\t")
        if line.startswith("# "):
            name, _, words = line[2:].partition(": ")
            about.setdefault(name, []).append(words)
        elif len(fields) == 7 and fields[0] != "table":
            cells[tuple(fields[:3])] = (None if fields[3] == "over" else float(fields[3]), int(fields[6] or 0))
    return about, cells


def labels(about, table):
    git = " ".join(["git"] + about.get("git", []))
    fnmatch = "a loop of fnmatch" if table in QUESTIONS else "fnmatch"
    program = " ".join(["git"] + about.get("git-program", [])) + ", `check-ignore` and `check-attr`"
    return {"git": git, "git-fixed": f"{git}, later fix", "fnmatch": f"{fnmatch}, {about['fnmatch'][0]}", OURS: OURS,
            "git-program": program, "whichline": "`whichline`"}


def shown(ns):
    for limit, unit in ((1e3, "ns"), (1e6, "us"), (1e9, "ms")):
        if ns < limit:
            return f"{ns / limit * 1e3:.3g} {unit}"
    return f"{ns / 1e9:.3g} s"


def times(ratio):
    """Three digits, written out."""
    if ratio >= 100:
        return f"x{round(ratio, 2 - int(math.log10(ratio))):,.0f}"
    return f"x{ratio:#.3g}".rstrip(".") if ratio >= 0.001 else "x<0.001"


def fastest(cells, table, column):
    """The least time of a peer with the same answers; a loop of fnmatch is not the whole question."""
    peers = [peer for peer in PEERS if peer != "fnmatch" or table not in QUESTIONS]
    found = [cells.get((table, column, peer), (None, 0)) for peer in peers]
    return min((time for time, different in found if time and not different), default=None)


def no_time(cells, table, worker):
    over = [key[1] for key, (ns, _) in cells.items() if key[0] == table and key[2] == worker and ns is None]
    return f"> {PATIENCE} at {over[0]}" if over else "no `**`" if worker == "fnmatch" else "not asked"


def cell(cells, table, column, worker):
    """A time and its ratio, or why there is none."""
    if (table, column, worker) not in cells:
        return no_time(cells, table, worker)
    ns, different = cells[table, column, worker]
    if ns is None:
        return f"> {PATIENCE}"
    if different:
        return f"{shown(ns)}, {different} answers differ"
    least = fastest(cells, table, column)
    return shown(ns) + (f" ({times(ns / least)})" if least else "")


def table(about, cells, name):
    columns = TABLES[name][1]
    workers = [w for w in WORKERS if any(key[0] == name and key[2] == w for key in cells)]
    if not workers:
        return "Left out: " + "; ".join(about.get(f"no {name}", ["not in the data"])) + "."
    out = ["| | " + " | ".join(columns.values()) + " |", "|---" * (len(columns) + 1) + "|"]
    for worker in workers:
        row = [cell(cells, name, column, worker) for column in columns]
        out.append(f"| {labels(about, name)[worker]} | " + " | ".join(row) + " |")
    return "\n".join(out)


def renew(document, printed):
    """The tables that stand in the document."""
    def marked(found):
        return f"{found[1]}\n{printed[found[2]]}\n<!-- end -->"

    text = document.read_text()
    document.write_text(re.sub(r"(<!-- bench (\w+) -->)\n.*?<!-- end -->", marked, text, flags=re.S))


def main():
    about, cells = read(pathlib.Path(sys.argv[1]))
    for words in about.get("left out", []):
        print(f"**Left out: {words}.**\n")
    printed = {name: table(about, cells, name) for name in TABLES}
    for name, lines in printed.items():
        print(f"### {TABLES[name][0]}\n\n{lines}\n")
    if len(sys.argv) > 2:
        renew(pathlib.Path(sys.argv[2]), printed)


if __name__ == "__main__":
    main()
