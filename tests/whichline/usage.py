"""Wrong usage, and files and streams that fail: one line on standard error, and no answer."""
import os
import pathlib
import subprocess

from program import CONTROLS, field

RULES = 65536
# What is asked, and what the one line must speak of.
WORDS = [([], b"ignore"), (["fill"], b"ignore"), (["ignored", "top"], b"ignore"), ([""], b"ignore"), (["--fold", "ignore", "top"], b"ignore"),
         (["attribute"], b"attribute"), (["attribute", "fill"], b"rule file"), (["ignore"], b"rule file"), (["ignore", "--fold"], b"rule file"),
         (["ignore", "--bad", "top"], b"--bad"), (["ignore", "top", "--bad"], b"--bad"), (["ignore", "--in=sky", "top"], b"--in=sky"),
         (["ignore", "--"], b"--"), (["ignore", "top", "--in"], b"--in"), (["ignore", "top", "--in", "sky"], b"--in"),
         (["ignore", "missing"], b"missing: "), (["ignore", "top", "--in", "sky", "missing"], b"missing: "), (["ignore", ""], b'"": '),
         (["attribute", "fill", "top", "missing"], b"missing: "), (["ignore", "folder"], b"folder: "), (["ignore", "top/"], b"top/: "),
         (["ignore", "top", "n" * 5000], b"too long"), (["ignore", "top", "--in", "n" * 5000, "top"], b"too long"), (["-h"], b"--help"),
         (["ignore", "no\nfile"], rb'"no\nfile": '), (["ignore", "--a\nb", "top"], rb'"--a\nb": '), (["ignore", "top", "--in", "a/", "missing\x1b"], rb'"missing\033": '),
         (["ignore", "top", "--in", "a\n/", "missing\x1b"], rb'"a\n/": no directory'),
         (["ignore", "--in", "--fold", "top"], b"--in"), (["ignore", "--in", "sky", "--fold", "top"], b"--in"), (["ignore", "--in", "--in", "sky", "top"], b"--in"),
         (["attribute", "--fold", "fill", "top"], b"its name"), (["attribute", "--in", "sky", "top"], b"its name"),
         (["ignore", "top", "large"], b"large: over 65,536"), (["attribute", "fill", "huge"], b"huge: over 65,536"), (["ignore", "endless"], b"endless: over 65,536")]
NO_DIRECTORIES = ["", "/", ".", "..", "./sky", "../sky", "sky/..", "/a", "/a/", "a//b", "a//", "//", "a/./b", "a/../b/", "n" * 4097 + "/",
                  "a\n/", "a\n", "\tb", "a\rb/c", "a/\x7f", "\x01", "sky/\r/", "\x1f~", *(f"a{chr(byte)}b" for byte in CONTROLS[1:])]
NO_DIRECTORY = b": no directory of the archive: give it from the archive's top, as `sky/north`, and without control bytes\n"
HELP = (b"--fold", b"--in", b"ignore", b"attribute", b"re-included", b"unspecified", b"refused", b"CRLF", b"control byte")
# Bytes beside those that no directory may hold.
DIRECTORIES = [b"a b", b" ", b"~", b"~/", b"a/~ ", b'"a"', b"\x80", b"\xff/\x80/", b"\xc2\x85"]


def words(trial):
    trial.write({"top": b"*\n", "large": b"#" * (RULES + 1), "huge": b"#" * 5000000})
    os.mkdir(os.path.join(trial.folder, "folder"))
    os.symlink("/dev/zero", os.path.join(trial.folder, "endless"))
    for asked, part in WORDS:
        trial.complains(f"asked {[word[:20] for word in asked]}", asked, part)
    for directory in NO_DIRECTORIES:
        part = b"too long" if len(directory) > 4096 else b"whichline: " + (field(directory.encode()) or b'""') + NO_DIRECTORY
        trial.complains(f"--in {directory[:20]!r}", ["ignore", "top", "--in", directory, "top"], part)


def directories(trial):
    """A directory may hold every byte that a path may hold."""
    trial.write({"top": b"*\n"})
    for directory in DIRECTORIES:
        path = directory.rstrip(b"/") + b"/x"
        trial.answers(f"--in {directory!r}", ["ignore", "--in", directory, "top"], path + b"\nx\n", [(field(path), "ignored", field(path), "top", 1), ("x", "nothing")])
    good = [b"a%cb" % byte for byte in range(32, 256) if byte not in CONTROLS]
    words = [word for directory in good for word in ("--in", directory, "top")]
    trial.answers("--in with every other byte", ["ignore", *words], b"".join(directory + b"/x\n" for directory in good),
                  [(directory + b"/x", "ignored", directory + b"/x", "top", 1) for directory in good])


def many(trial):
    """Just too many files, bytes, and bytes of directories."""
    trial.write({"top": b"*\n", "most": b"#" * RULES, "one": b"#"})
    trial.complains("257 files", ["ignore", *["top"] * 257], b"256")
    trial.complains("257 files in directories", ["ignore", *["--in", "a", "top"] * 257], b"256")
    trial.complains("262,145 bytes together", ["ignore", *["most"] * 4, "one"], b"one: with the files before it, over 262,144")
    trial.complains("far over 262,144 bytes together", ["ignore", *["most"] * 3, "one", "most"], b"most: with the files before it, over 262,144")
    long = "n" * 4095
    trial.answers("directories of 65,536 bytes", ["ignore", *["--in", long, "top"] * 16], b"a\n", [("a", "nothing")])
    trial.complains("directories of 65,538 bytes", ["ignore", *["--in", long, "top"] * 16, "--in", "a", "top"], b"65,536")


def unreadable(trial):
    """A file without rights."""
    trial.write({"shut": b"*\n"})
    shut = os.path.join(trial.folder, "shut")
    os.chmod(shut, 0)
    if os.access(shut, os.R_OK):
        print("NOT RUN: a file without rights, which this user may read all the same")
    else:
        trial.complains("a file without rights", ["ignore", "shut"], b"shut: ")


def streams(trial):
    """Standard output that is full or closed, standard input that cannot be read."""
    trial.write({"top": b"*\n"})
    with open("/dev/full", "wb") as full:
        trial.complains("a full standard output", ["ignore", "top"], b"standard output: ", stdout=full)
        trial.complains("help to a full standard output", ["--help"], b"standard output: ", stdout=full)
    trial.complains("a closed standard output", ["ignore", "top"], b"standard output", stdout=None, preexec_fn=lambda: os.close(1))
    folder = os.open(trial.folder, os.O_RDONLY)
    trial.complains("a directory as standard input", ["ignore", "top"], b"standard input: ", stdin=folder)
    os.close(folder)
    trial.complains("a closed standard input", ["ignore", "top"], b"standard input: ", stdin=subprocess.DEVNULL, preexec_fn=lambda: os.close(0))


def helps(trial):
    """--help, wherever it stands: help.txt on standard output, byte for byte, with every option and word; nothing is read or asked."""
    page = (pathlib.Path(__file__).resolve().parent / "help.txt").read_bytes()
    for asked in (["--help"], ["ignore", "--help"], ["attribute", "--help"], ["ignore", "missing", "--help"], ["--bad", "--help"]):
        trial.asked += 1
        done = trial.run(asked, b"a\n", installed=True)
        missing = [word for word in HELP if word not in done.stdout]
        if missing or done.stdout != page or done.stderr or done.returncode:
            trial.fault(f"help by {asked}", f"status {done.returncode}, said {done.stderr!r}, without {missing}, or not help.txt")


def check(trial):
    for part in (words, directories, many, unreadable, streams, helps):
        part(trial)
