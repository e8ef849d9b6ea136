"""What the twin says of an archive's listing, as the fields that the program should print."""
import subprocess

from program import field

IGNORE = {1: b"ignored", 2: b"re-included"}
STATES = {1: b"set", 2: b"unset", 4: b"unspecified"}
KEPT = 8192


def above(directory, path):
    """Does the directory stand above the path? Judged by components, not by bytes."""
    if not directory:
        return True
    names, parts = directory.split(b"/"), path.split(b"/")
    return len(names) < len(parts) and all(name == part for name, part in zip(names, parts))


class Question:
    """One line of the listing, with the files that stand above its path."""

    def __init__(self, archive, line):
        self.archive, self.line = archive, line
        self.directory = line.endswith(b"/")
        self.path = line[:-1] if self.directory else line
        self.lent = [file for file in archive.files if above(file[1], self.path)]
        self.rules = b"".join(content for _, _, content in self.lent)

    def words(self):
        """As `ask_questions` reads it."""
        ends, total = [], 0
        for _, _, content in self.lent:
            total += len(content)
            ends.append(str(total))
        bases = [str(len(directory) + 1 if directory else 0) for _, directory, _ in self.lent]
        name = self.archive.attribute
        kind, asked = ("ignore", []) if name is None else ("attribute", [name.hex() or "-"])
        flags = self.directory + 2 * self.archive.fold
        return " ".join([kind, self.path.hex() or "-", self.rules.hex() or "-", ",".join(ends) or "-", ",".join(bases) or "-", *asked, str(flags)])

    def fields(self, code, *numbers):
        """The printed fields, from the twin's numbers."""
        shown = field(self.line) if len(self.line) <= KEPT else field(self.line[:KEPT]) + b"..."
        if code > 16:
            return shown, b"refused %d" % (code - 16)
        if code == 0:
            return shown, b"nothing"
        name = field(self.lent[numbers[-2]][0])
        if self.archive.attribute is not None:
            said = b"value " + field(self.rules[numbers[0]:numbers[0] + numbers[1]]) if code == 3 else STATES[code]
            return shown, said, field(self.line), name, b"%d" % numbers[-1]
        entry = self.path[:numbers[0]]
        is_directory = self.directory or entry != self.path
        return shown, IGNORE[code], field(entry + (b"/" if is_directory else b"")), name, b"%d" % numbers[-1]


def judge(ask, archive):
    """The fields of every line's answer."""
    questions = [Question(archive, line) for line in archive.listing]
    done = subprocess.run([ask, "twin"], input="".join(q.words() + "\n" for q in questions), text=True, stdout=subprocess.PIPE, check=True)
    answers = [[int(word) for word in line.split()] for line in done.stdout.splitlines()]
    return [question.fields(*numbers) for question, numbers in zip(questions, answers, strict=True)]
