#!/usr/bin/env python3
"""Asks every worker the same questions in one run and writes the times down.

usage: measure.py WORKERS DATA [a line about the run]...

WORKERS is a folder with the programs fidshore, fnmatch and, if they could be
built, git and git-fixed. DATA gets a line a cell: table, column, worker,
nanoseconds a question (the median, or `over` where there was no answer in
time), the least and the most of the rounds, and how many answers differ from
fidshore's. The answers are compared first: git's must all be the same.
fnmatch has no `**`, so its own differences are only counted. listing.py adds
one more table, whose times are those of a whole command.
"""
import pathlib
import signal
import statistics
import subprocess
import sys
import tempfile

import workload

OURS, FNMATCH = "fidshore", "fnmatch"
WORKERS = ("git", "git-fixed", FNMATCH, OURS)


class Worker:
    """One process; it is started again after it ran out of time."""

    def __init__(self, program):
        self.program, self.process = program, None

    def ask(self, line):
        """The words of the answer, or None if there was none in time."""
        if self.process is None:
            self.process = subprocess.Popen([self.program], stdin=subprocess.PIPE, stdout=subprocess.PIPE, text=True)
        self.process.stdin.write(line + "\n")
        self.process.stdin.flush()
        answer = self.process.stdout.readline()
        if answer.endswith("\n"):
            return answer.split()
        ended = self.process.wait()
        self.process = None
        if ended != -signal.SIGPROF:
            sys.exit(f"{self.program} ended at: {line}")
        return None

    def end(self):
        if self.process:
            self.process.stdin.close()
            self.process.wait()


class Cell:
    """What is known of one worker in one column."""

    def __init__(self):
        self.times, self.different = [], 0

    def fields(self):
        if not self.times:
            return ["over", "", "", ""]
        numbers = (statistics.median(self.times), min(self.times), max(self.times))
        return [f"{n:.4g}" for n in numbers] + [str(self.different)]


def can_ask(name, table, column):
    """fnmatch has neither `**` nor attributes."""
    return name != FNMATCH or (table.call != "attribute" and not table.crosses(column))


def compare(workers, table, column, file, late):
    """A cell for each worker that answers in time; `late` gathers the others of a growing table."""
    cells, answers = {}, {}
    for name, worker in workers.items():
        if name in late or not can_ask(name, table, column):
            continue
        cells[name] = Cell()
        answers[name] = worker.ask(f"check {file} {table.patience}")
        if answers[name] is None and table.growing:
            late.add(name)
    for name, answer in answers.items():
        if answer is None or answers[OURS] is None:
            continue
        cells[name].different = sum(a != b for a, b in zip(answer, answers[OURS], strict=True))
        if cells[name].different and name != FNMATCH:
            sys.exit(f"{table.name} {column}: {cells[name].different} answers of {name} are not those of {OURS}")
    return cells, answers


def alike(table, answers):
    """One more column for 001's rows: those that fnmatch answers as the others do."""
    ours, other = answers["all"][OURS], answers["all"][FNMATCH]
    return [ask for ask, a, b in zip(table.columns["all"], ours, other) if a == b]


def measure(workers, table, folder):
    """Cells by column and worker. The rounds go over all columns and workers; the first is a warm-up."""
    files, cells, answers, late = {}, {}, {}, set()

    def begin(column):
        files[column] = pathlib.Path(folder, f"{table.name}-{column}")
        workload.write(table, column, files[column])
        cells[column], answers[column] = compare(workers, table, column, files[column], late)

    for column in table.columns:
        begin(column)
    if table.name == "rows":
        table.columns["alike"] = alike(table, answers)
        begin("alike")
    for turn in range(table.rounds + 1):
        for column, file in files.items():
            for name, cell in cells[column].items():
                if answers[column][name] is None:
                    continue
                words = workers[name].ask(f"time {file} {table.ms}")
                if turn:
                    cell.times.append(float(words[0]))
    return cells


def main():
    folder, data, about = pathlib.Path(sys.argv[1]), pathlib.Path(sys.argv[2]), sys.argv[3:]
    workers = {name: Worker(str(folder / name)) for name in WORKERS if (folder / name).exists()}
    out = [f"# {line}" for line in about] + ["table\tcolumn\tworker\tns\tleast\tmost\tdifferent"]
    with tempfile.TemporaryDirectory() as place:
        for table in workload.tables():
            print(f"measuring: {table.name}", file=sys.stderr, flush=True)
            for column, cells in measure(workers, table, place).items():
                out += ["\t".join([table.name, str(column), name] + cell.fields()) for name, cell in cells.items()]
    for worker in workers.values():
        worker.end()
    data.write_text("\n".join(out) + "\n")


if __name__ == "__main__":
    main()
