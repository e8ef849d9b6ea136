#!/usr/bin/env python3
"""The command-line program and the installed git over one long listing, for which git reads the rules once.

usage: listing.py WHICHLINE DATA

DATA is what measure.py wrote: the table `listing` in it is measured anew, all
other lines stay. Its times are those of a whole command, processor time of
user and system. The answers are compared first, and must all be the same.

Both run in a throw-away work tree in which all that is listed is there: git
looks at the disk for what is a directory and, if it finds nothing, looks again
for every line that is about directories. Both write to plain files: into a pipe
git would write each answer by itself.
"""
import os
import pathlib
import shutil
import subprocess
import sys
import tempfile

import workload
from measure import Cell

TABLE, OURS, GIT = "listing", "whichline", "git-program"
FILES = {"ignore": ".gitignore", "attribute": ".gitattributes"}
ATTRIBUTE = "fill"
ROUNDS, FEWER = 5, 3    # the second where a command takes many seconds


def own(line):
    """Is it one of the lines that this program writes?"""
    return line.startswith((f"{TABLE}\t", f"# {GIT}: ", f"# no {TABLE}: "))


def write(data, about, rows):
    kept = [line for line in data.read_text().splitlines() if not own(line)]
    comments = [line for line in kept if line.startswith("# ")]
    data.write_text("\n".join(comments + [about] + kept[len(comments):] + rows) + "\n")


# What a printed line says, alike for both. Git tells neither an attribute's line nor "no line spoke" from "unspecified".

def ignored_by_git(line):
    place, _, path = line.partition("\t")
    source, number, pattern = place.split(":", 2)
    return (path, *(("re-included" if pattern.startswith("!") else "ignored", number) if source else ("nothing",)))


def ignored_by_us(line):
    path, verdict, *place = line.split("\t")
    return (path.rstrip("/"), verdict, *place[2:])


def attribute_by_git(line):
    path, _, state = line.split(": ")
    return path, state


def attribute_by_us(line):
    path, state = line.split("\t")[:2]
    return path, "unspecified" if state == "nothing" else state.removeprefix("value ")


class Command:
    """What is run in the tree, on which listing, and how a line of its output is read."""

    def __init__(self, words, listing, read):
        self.words, self.listing, self.read = words, listing, read

    def run(self, tree, env):
        """Nanoseconds of processor time."""
        with open(tree / "../listing" / self.listing) as paths, open(tree / "../out", "w") as out:
            process = subprocess.Popen(self.words, cwd=tree, env=env, stdin=paths, stdout=out)
            _, status, used = os.wait4(process.pid, 0)
        process.returncode = os.waitstatus_to_exitcode(status)
        if process.returncode not in (0, 1):    # check-ignore: 1 if nothing is ignored
            sys.exit(f"{self.words} ended with {process.returncode}")
        return (used.ru_utime + used.ru_stime) * 1e9

    def answers(self, tree, env):
        self.run(tree, env)
        return [self.read(line) for line in (tree / "../out").read_text().splitlines()]


def commands(program):
    """By question and worker. Only check-ignore is asked about a directory without its slash: see README.md's known differences."""
    return {"ignore": {GIT: Command(["git", "check-ignore", "-v", "-n", "--no-index", "--stdin"], "plain", ignored_by_git),
                       OURS: Command([program, "ignore", FILES["ignore"]], "marked", ignored_by_us)},
            "attribute": {GIT: Command(["git", "check-attr", "--stdin", ATTRIBUTE], "marked", attribute_by_git),
                          OURS: Command([program, "attribute", ATTRIBUTE, FILES["attribute"]], "marked", attribute_by_us)}}


def plant(tree, env):
    """The work tree, and the listing beside it, with and without the slashes that mark directories; gives how many are listed."""
    subprocess.run(["git", "init", "-q", "--template=", tree], env=env, check=True)
    entries = workload.listing()
    for name, directory in entries:
        (tree / name).mkdir() if directory else (tree / name).touch()
    (tree / "../listing").mkdir()
    (tree / "../listing/plain").write_text("".join(f"{name}\n" for name, _ in entries))
    (tree / "../listing/marked").write_text("".join(f"{name}{'/' * directory}\n" for name, directory in entries))
    return len(entries)


def compare(asked, tree, env, listed, about):
    theirs, ours = (command.answers(tree, env) for command in asked.values())
    if theirs != ours or len(ours) != listed:
        sys.exit(f"{TABLE} {about}: the answers of git are not those of {OURS}")


def measure(program, top):
    """Cells by column and worker; the first run of each is the one whose answers are compared."""
    tree = top / "tree"
    env = {"PATH": os.environ["PATH"], "HOME": str(top), "GIT_CONFIG_GLOBAL": os.devnull, "GIT_CONFIG_NOSYSTEM": "1",
           "GIT_ATTR_NOSYSTEM": "1", "LC_ALL": "C"}
    listed, cells = plant(tree, env), {}
    columns = [(question, column, rules) for question, found in workload.listing_rules().items() for column, rules in found.items()]
    for turn in range(ROUNDS + 1):
        for question, column, rules in columns:
            asked, at = commands(program)[question], f"{question}-{column}"
            if turn > FEWER and rules.count(b"\n") >= 1000:
                continue
            (tree / FILES[question]).write_bytes(rules)
            if turn == 0:
                compare(asked, tree, env, listed, at)
                cells[at] = {name: Cell() for name in asked}
                continue
            for name, command in asked.items():
                cells[at][name].times.append(command.run(tree, env))
    return cells


def main():
    program, data = os.path.abspath(sys.argv[1]), pathlib.Path(sys.argv[2])
    missing = [words for there, words in ((os.path.exists(program), "whichline (make whichline)"), (shutil.which("git"), "an installed git"))
               if not there]
    if missing:
        print(f"the listing is left out: it needs {' and '.join(missing)}", file=sys.stderr)
        return write(data, f"# no {TABLE}: it needs {' and '.join(missing)}", [])
    print(f"measuring: {TABLE}", file=sys.stderr, flush=True)
    version = subprocess.run(["git", "--version"], capture_output=True, text=True, check=True).stdout.split()[2]
    with tempfile.TemporaryDirectory() as top:
        cells = measure(program, pathlib.Path(top))
    rows = ["\t".join([TABLE, column, name] + cell.fields()) for column, found in cells.items() for name, cell in found.items()]
    write(data, f"# {GIT}: {version}", rows)


main()
