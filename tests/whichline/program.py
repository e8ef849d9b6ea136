"""How the tests here ask the command-line program, and what they hold its answers to."""
import contextlib
import os
import pathlib
import re
import shutil
import subprocess
import sys
import tempfile

ROOT = pathlib.Path(__file__).resolve().parent.parent.parent
BUILT = ROOT / "target" / "bin" / "whichline"
LETTERS = {7: b"a", 8: b"b", 9: b"t", 10: b"n", 11: b"v", 12: b"f", 13: b"r", 34: b'"', 92: b"\\"}
# The bytes of refusal 1 (02's R-8), which a path cannot hold; a rule file's name, a value and a rule line can.
CONTROLS = [*range(32), 127]
# What the reason of each refusal must speak of. The rest of its words is the program's. A listing with CRLF ends has refusal 1
# for every path, and its user has to find out why.
REASONS = {1: [b"path", b"control byte", b"CRLF"], 2: [b"64"], 3: [b"65,536"], 4: [b"byte 0"], 5: [b"2,048"], 6: [b"name"]}


def find(words):
    """The program that the first of these words names, or the one that was built here."""
    program = pathlib.Path(words[0] if words else BUILT).resolve()
    if not os.access(program, os.X_OK):
        sys.exit(f"{program.name}: not built: run 'make whichline'")
    return program


def field(text):
    """A field as the program prints it: as it is, or quoted as in C."""
    if not re.search(rb'[\x00-\x1f\x7f]|\A"', text):
        return text
    return b'"' + re.sub(rb'[\x00-\x1f\x7f"\\]', lambda m: b"\\" + LETTERS.get(m[0][0], b"%03o" % m[0][0]), text) + b'"'


def as_bytes(word):
    return word if isinstance(word, bytes) else str(word).encode()


def same(printed, expected):
    """Is a printed line this one? Expected are its fields; `refused 1` stands for the number and a fitting reason."""
    got, wanted = printed.split(b"\t"), [as_bytes(word) for word in expected]
    refusal = re.fullmatch(rb"refused (\d)", wanted[1])
    if not refusal:
        return got == wanted
    fits = len(got) == len(wanted) and got[0] == wanted[0] and got[1].startswith(wanted[1] + b": ")
    return fits and all(word in got[1] for word in REASONS[int(refusal[1])])


def shorter(text):
    return text if len(text) < 200 else text[:200] + b".. (%d bytes)" % len(text)


def is_text(word):
    """Whether a word of the command line is UTF-8."""
    with contextlib.suppress(UnicodeDecodeError):
        as_bytes(word).decode()
        return True
    return False


class Trial:
    """A temporary folder in which the program is asked, and what was found wrong."""

    def __init__(self, program):
        self.program, self.asked, self.wrong = program, 0, 0
        self.top = tempfile.mkdtemp()
        # Laid as `make install` does: the program that gives an exit status finds the proved one beside it.
        self.installed = os.path.join(self.top, "bin", "whichline")
        for place in ("bin", "libexec/fidshore", "rules"):
            os.makedirs(os.path.join(self.top, place))
        shutil.copy(ROOT / "bin" / "whichline", self.installed)
        os.symlink(program, os.path.join(self.top, "libexec", "fidshore", "whichline"))
        self.folder = os.path.join(self.top, "rules")

    @contextlib.contextmanager
    def open(self):
        try:
            yield self
        finally:
            shutil.rmtree(self.top)

    def write(self, files):
        """Rule files by name, in place of those before."""
        shutil.rmtree(self.folder)
        os.mkdir(self.folder)
        for name, content in files.items():
            place = os.path.join(os.fsencode(self.folder), as_bytes(name))
            os.makedirs(os.path.dirname(place), exist_ok=True)
            with open(place, "wb") as out:
                out.write(content)

    def command(self, words):
        """The proved program, or bin/whichline, through which alone a file is opened whose name is not UTF-8."""
        return str(self.program) if all(is_text(word) for word in words) else self.installed

    def run(self, words, listing=b"", installed=False, **more):
        more = {"stdout": subprocess.PIPE, "stderr": subprocess.PIPE, "timeout": 120} | more
        if "stdin" not in more:
            more["input"] = listing
        return subprocess.run([self.installed if installed else self.command(words), *words], cwd=self.folder, **more)

    def fault(self, title, words):
        self.wrong += 1
        print(f"WRONG {title}: {words}")

    def answers(self, title, words, listing, expected):
        """Every line of the listing has the answer that stands at its place, and nothing else is said."""
        self.asked += 1
        done = self.run(words, listing)
        lines = done.stdout.split(b"\n")
        if done.stderr or done.returncode or lines[-1]:
            self.fault(title, f"status {done.returncode}, last line {shorter(lines[-1])!r}, said {shorter(done.stderr)!r}")
        if len(lines) - 1 != len(expected):
            self.fault(title, f"{len(lines) - 1} answers to {len(expected)} paths")
        for line, fields in zip(lines, expected):
            if not same(line, fields):
                self.fault(title, f"answered {shorter(line)!r}, not {shorter(b' | '.join(map(as_bytes, fields)))!r}")

    def complains(self, title, words, part, **more):
        """One line on standard error with this part in it, nothing on standard output, and as installed status 2."""
        self.asked += 1
        for installed in (False, True):
            done = self.run(words, b"cal/\n", installed, **more)
            if done.stdout or not re.fullmatch(rb"whichline: [^\n]+\n", done.stderr) or part not in done.stderr:
                self.fault(title, f"said {shorter(done.stderr)!r}, answered {shorter(done.stdout or b'')!r}")
            if installed and done.returncode != 2:
                self.fault(title, f"status {done.returncode}, not 2")

    def end(self, name):
        print(f"{name}: {self.asked} asked, {self.wrong} wrong")
        sys.exit(self.wrong > 0)
