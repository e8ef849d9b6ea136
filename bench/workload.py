"""What the workers are asked: tables of columns, a column being a list of questions.

Rule files and paths are drawn from a seeded generator: the usual lines of an
archive of sky images and hourly files, a few of them alive, with negations,
directories, anchors, classes and `**`. Same seed, same questions.
"""
import pathlib
import random
import urllib.parse

ROWS = pathlib.Path(__file__).resolve().parent.parent / "crates/testtables/data/document-001.tsv"
SEED = 20260314
RULES_LIMIT = 65536
SLOW_ROW = "148"    # takes most of git 2.39.5's time
# The rows of 001 whose pattern is broken: document 01, "Patterns".
BROKEN_ROWS = {"15", "62", "63", "64", "72", "83", "102", "103", "104", "105", "106", "108", "109", "127"}
PATTERN_LIMIT = 2048

LINES = (10, 30, 100, 300, 1000, 3000)
COMPONENTS = (1, 2, 4, 8, 16, 32, 64)
STARS = (1, 2, 3, 4, 5, 6, 8, 16, 32, 64)
CROSSINGS = (1, 2, 4, 8, 16, 29)
PATH_SIZES = (7, 12, 20, 40, 64, 100, 1000, 4096)
RUN_STARS = (2, 3, 4, 10)

IGNORE = ["*.tmp", "/scratch/", "cal/", "!site07/cal/", "doc/**/*.pdf", "*.log", "!audit.log", "**/h0[0-3]/dark_*",
          "# loggers", "*.nc.part", "*~", "*.sw[op]", "/site39/", "thumbs/*.png", "!thumbs/day.png", "**/quicklook",
          "core", "raw/**/*.bin", "irr_????.nc.new", ".cache/"]
MORE_IGNORE = ["*.{ext}{i}", "/{stem}{i}/", "{stem}_{i}_*.{ext}", "!{stem}{i}.{ext}", "{stem}{i}/**/*.{ext}", "{stem}{i}/",
               "**/{stem}{i}", "{stem}[0-9]_{i}.{ext}", "# {stem} {i}", "fleet/{stem}{i}/*", "{stem}?{i}*.{ext}"]
ATTRIBUTES = ["*.nc fill", "*.fits -fill", "sky_*.nc unit=counts", "**/cal/** !fill", "fleet/cal/*.fits fill=dark", "*.csv text",
              "/site39/** -fill", "**/h0[0-3]/* fill=night", "# loggers", "*.png -text"]
MORE_ATTRIBUTES = ["*.{ext}{i} fill", "/{stem}{i}/** -fill", "{stem}_{i}_*.{ext} unit=k", "**/{stem}{i} !fill",
                   "{stem}{i}/*.{ext} -text", "{stem}[0-9]_{i}.{ext} fill"]
# Lines that end in a wildcard: the last byte of an entry rules none of them out.
OPEN = ["{stem}_{i}_*", "{stem}{i}/*", "**/{stem}{i}*", "!{stem}{i}?", "/{stem}{i}*"]
# Names of single files, with the ending that most files have: git compares them as strings.
NAMES = ["{stem}_{i}.nc"]
STEMS = ["sky", "irr", "dark", "flat", "mask", "ghi", "dni", "cam"]
EXTENSIONS = ["nc", "nc", "fits", "csv", "png", "jpg", "json", "bak"]


def lines(usual, more, count, seed):
    """So many lines: the usual ones, spread evenly among drawn ones."""
    draw = random.Random(seed)
    alive = usual[:count]
    drawn = [more[i % len(more)].format(ext=draw.choice(EXTENSIONS), stem=draw.choice(STEMS), i=i)
             for i in range(count - len(alive))]
    step = len(drawn) // len(alive)
    out = []
    for i, line in enumerate(alive):
        out += drawn[i * step:(i + 1) * step] + [line]
    out += drawn[len(alive) * step:]
    rules = "".join(line + "\n" for line in out).encode()
    assert len(out) == count and len(rules) <= RULES_LIMIT
    return rules


def path(draw):
    """A path as the archive has them, and 1 if it is a directory."""
    site, day, hour = f"site{draw.randrange(40):02}", f"2026/{draw.randrange(1, 13):02}/{draw.randrange(1, 29):02}", draw.randrange(24)
    kinds = [(50, f"{site}/{day}/h{hour:02}/sky_{hour:02}{draw.randrange(60):02}.nc"),
             (22, f"{site}/{day}/h{hour:02}/irr_{hour:02}00.nc"),
             (6, f"{site}/{day}/quicklook/day.png"),
             (6, f"{site}/cal/flat_{draw.randrange(99)}.fits"),
             (4, f"fleet/cal/dark_{draw.randrange(99)}.fits"),
             (3, f"raw/{site}/{draw.randrange(999)}.bin"),
             (3, f"logs/{draw.choice(['audit', 'net', 'cam'])}.log"),
             (3, f"doc/notes/{draw.randrange(99)}.{draw.choice(['pdf', 'md'])}"),
             (3, f"{site}/{day}/")]
    chosen = draw.choices([p for _, p in kinds], [weight for weight, _ in kinds])[0]
    return chosen.rstrip("/").encode(), int(chosen.endswith("/"))


def paths(count=1000):
    draw = random.Random(SEED)
    return [path(draw) for _ in range(count)]


def deep_paths(components, count=100):
    """Directories that no line ignores, so that every component is judged, and a file."""
    draw = random.Random(SEED + components)
    above = [[f"{draw.choice(['year', 'month', 'day', 'set'])}{draw.randrange(100):02}" for _ in range(components - 1)]
             for _ in range(count)]
    return [("/".join(names + [f"sky_{draw.randrange(2400):04}.nc"]).encode(), 0) for names in above]


def inside(name, files):
    """A directory and its files."""
    return [(name, 1)] + [(f"{name}/{file}", 0) for file in files]


def whole_day(name):
    out = [(name, 1)]
    for hour in range(24):
        out += inside(f"{name}/h{hour:02}", [f"irr_{hour:02}00.nc"] + [f"sky_{hour:02}{minute:02}.nc" for minute in range(60)])
    return out + inside(f"{name}/quicklook", ["day.png"])


def listing(count=200_000):
    """Entries as a walk over the archive prints them: a directory, then what is in it. So neighbours share their directories."""
    out = []
    for number in range(40):
        site = f"site{number:02}"
        out += [(site, 1)] + inside(f"{site}/cal", [f"flat_{n}.fits" for n in range(99)]) + [(f"{site}/2026", 1), (f"{site}/2026/03", 1)]
        for day in range(14, 18):
            out += whole_day(f"{site}/2026/03/{day}")
    assert len(out) >= count
    return out[:count]


def listing_rules():
    """The rule files that the listing is asked over, by question and column."""
    names = lines(["irr_0500.nc"], NAMES, 1000, SEED)
    ignore = {str(n): lines(IGNORE, MORE_IGNORE, n, SEED) for n in (10, 100, 1000)}
    attribute = {str(n): lines(ATTRIBUTES, MORE_ATTRIBUTES, n, SEED) for n in (10, 100, 1000)}
    return {"ignore": {**ignore, "names": names}, "attribute": {**attribute, "names": names.replace(b"\n", b" fill\n")}}


def asked(rules, about):
    return [(rules, name, directory) for name, directory in about]


def every_row():
    """All rows of 001: section, number, pattern, text, and whether it matches in path mode."""
    for line in ROWS.read_text().split("\n"):
        fields = line.split("\t")
        if len(fields) == 4 and not line.startswith("#"):
            pattern, text = (urllib.parse.unquote_to_bytes(field) for field in fields[1:3])
            yield *fields[0].rsplit(".", 1), pattern, text, fields[3][0] == "1"


def rows():
    """The numbered rows of 001: number, pattern, text."""
    return [(number, pattern, text) for section, number, pattern, text, _ in every_row() if section != "1.13"]


def one(pattern, text):
    return [(pattern, text, 1)]


class Table:
    """Columns of questions for one call. A worker has `patience` seconds for a
    column's answers; in a growing table it is not asked the columns after one
    that took it longer. A time is that of at least `ms` milliseconds."""

    def __init__(self, name, call, columns, growing=True, patience=3, rounds=5, ms=20):
        self.name, self.call, self.columns = name, call, columns
        self.growing, self.patience, self.rounds, self.ms = growing, patience, rounds, ms

    def crosses(self, column):
        """Does the column hang on `**`, which fnmatch does not have?"""
        return self.name == "crossing" or column == "dirs"


def rows_table():
    asks = [(number, (pattern, text, 1)) for number, pattern, text in rows()]
    assert len(asks) == 190
    columns = {"all": [ask for _, ask in asks], "quick": [ask for number, ask in asks if number != SLOW_ROW]}
    return Table("rows", "match", columns, growing=False, rounds=9, ms=60)


def tables():
    stars = {k: one(b"*a" * k, b"a" * 127 + b"b") for k in STARS}
    crossing = {k: one(b"**/a/" * k + b"b", b"a/" * 30 + b"c") for k in CROSSINGS}
    limits = {"stars": one(b"*a" * 1024, b"a" * 4095 + b"b"), "dirs": one(b"**/a/" * 409 + b"b", b"a/" * 2047 + b"c"),
              "class": one(b"*[ab]" * 409, b"a" * 4095 + b"c")}
    about = paths()
    ignore = {n: asked(lines(IGNORE, MORE_IGNORE, n, SEED), about) for n in LINES}
    attribute = {n: asked(lines(ATTRIBUTES, MORE_ATTRIBUTES, n, SEED), about) for n in LINES}
    open_ended = {n: asked(lines(["thumbs*"], OPEN, n, SEED), about) for n in LINES if n <= 1000}
    components = {n: asked(lines(IGNORE, MORE_IGNORE, 100, SEED), deep_paths(n)) for n in COMPONENTS}
    return [rows_table(),
            Table("stars", "match", stars),
            Table("crossing", "match", crossing),
            Table("limits", "match", limits, growing=False),
            Table("ignore", "ignore", ignore, patience=60, ms=60),
            Table("open", "ignore", open_ended, patience=60, ms=60),
            Table("attribute", "attribute", attribute, patience=60, ms=60),
            Table("components", "ignore", components, patience=60)]


def long_path(size):
    """A path of so many bytes: the end of a long one."""
    path = (b"site07/2026/03/14/h12/" * (size // 22 + 1) + b"irr.nc")[-size:]
    return b"x" + path[1:] if path.startswith(b"/") else path


def rows_by_answer():
    """All rows of 001 in path mode, by their answer: where nothing matches, the pattern may have to be read again (02, R-14)."""
    columns = {"match": [], "no match": [], "broken": []}
    for section, number, pattern, text, matches in every_row():
        broken = section != "1.13" and number in BROKEN_ROWS
        assert not (broken and matches)
        columns["match" if matches else "broken" if broken else "no match"].append((pattern, text, 1))
    assert {name: len(asks) for name, asks in columns.items()} == {"match": 108, "no match": 70, "broken": 14}
    return Table("rows, by answer", "match", columns, growing=False)


def broken_table():
    """Patterns of the most bytes that are read to their end, or nearly; of an even number of `\\` the last is escaped."""
    columns = {"`[`": b"[" * PATTERN_LIMIT, "`[[:[:`": (b"[[:" + b"[:" * PATTERN_LIMIT)[:PATTERN_LIMIT],
               "`\\`": b"\\" * PATTERN_LIMIT, "`\\`, odd": b"\\" * (PATTERN_LIMIT - 1), "literal": b"a" * PATTERN_LIMIT}
    return Table("broken", "match", {name: one(pattern, b"") for name, pattern in columns.items()}, growing=False)


def sizes():
    """Both questions over 10 lines, by the path's bytes; the matcher, by the stars of a run that crosses, by its answer to
    001's rows, and with patterns that are broken or nearly."""
    about = {size: [(long_path(size), 0)] for size in PATH_SIZES}
    ignore, attribute = lines(IGNORE, MORE_IGNORE, 10, SEED), lines(ATTRIBUTES, MORE_ATTRIBUTES, 10, SEED)
    runs = {stars: one(b"a/" + b"*" * stars + b"/b", b"a/x/y/b") for stars in RUN_STARS}
    return [Table("ignore, path", "ignore", {size: asked(ignore, about[size]) for size in PATH_SIZES}),
            Table("attribute, path", "attribute", {size: asked(attribute, about[size]) for size in PATH_SIZES}),
            Table("run, stars", "match", runs),
            rows_by_answer(),
            broken_table()]


def write(table, column, file):
    """A column as worker.c reads it."""
    def field(value, before):
        return "=" if value == before else value.hex() or "-"

    out, last = [table.call], (None, None)
    for first, second, flags in table.columns[column]:
        out.append(f"{field(first, last[0])}\t{field(second, last[1])}\t{flags}")
        last = (first, second)
    file.write_text("\n".join(out) + "\n")
