"""What a listing may hold: its ends, bytes that are quoted, and how it comes."""
import os
import pty
import re
import select
import subprocess
import tty

from program import CONTROLS, field

# Written by hand: a path, a file's name or a value, and how it is printed.
QUOTED = [(b"a\tb", rb'"a\tb"'), (b"a\r", rb'"a\r"'), (b"\x07\x08\x0b\x0c", rb'"\a\b\v\f"'), (b"\x01\x1f\x7f", rb'"\001\037\177"'),
          (b'"a', rb'"\"a"'), (b'"', rb'"\""'), (b'a"', b'a"'), (b"a\\", b"a\\"), (b"a\\\t", rb'"a\\\t"'), (b'a"\t', rb'"a\"\t"'),
          (b"\x80\xff\xc2\x85", b"\x80\xff\xc2\x85"), (b"\xe9\t", b'"\xe9\\t"'), (b" a ", b" a "), (b"a\rb", rb'"a\rb"'), (b"\x1b[0m", rb'"\033[0m"'),
          (b"~", b"~"), (b'"~ "', rb'"\"~ \""'), (b'"a\\b', rb'"\"a\\b"'), (b'"\\', rb'"\"\\"')]
# What stands before and behind a byte in a path, and the pattern that takes the path if it may hold the byte.
PLACES = [(b"", b"/x", b"/*/x"), (b"a", b"b", b"a?b"), (b"c/d", b"", b"c/d?"), (b"e", b"/", b"e?/")]


def answer(path, *said):
    """The fields of a path's answer: this or, if it holds a control byte, refusal 1."""
    return field(path), *(("refused 1",) if any(byte in CONTROLS for byte in path) else said)


def ends(trial):
    """A newline ends a line; bytes behind the last are a line; an empty line is an empty path."""
    trial.write({"top": b"a\n"})
    a, none = ("a", "ignored", "a", "top", 1), ("", "refused 1")
    for listing, expected in ((b"", []), (b"a", [a]), (b"a\n", [a]), (b"\n", [none]), (b"\n\n", [none, none]), (b"a\n\n", [a, none]),
                              (b"\na", [none, a]), (b"a\na", [a, a]), (b"a\n\na\n", [a, none, a])):
        trial.answers(f"listing {listing!r}", ["ignore", "top"], listing, expected)


def crlf(trial):
    """With CRLF ends every path is refused, and told why (program.py's REASONS); the lines beside these are answered. A BOM is part of a path."""
    trial.write({"top": b"a\ncal/\n"})
    a, cal, none = ("a", "ignored", "a", "top", 1), ("cal/", "ignored", "cal/", "top", 2), (rb'"\r"', "refused 1")
    bad, bad_cal, bom = (rb'"a\r"', "refused 1"), (rb'"cal/\r"', "refused 1"), b"\xef\xbb\xbfa"
    for listing, expected in ((b"a\r\ncal/\r\na\r\n", [bad, bad_cal, bad]), (b"\r\n\r\n", [none, none]), (b"a\r", [bad]), (b"\r", [none]),
                              (b"a\r\r\n", [(rb'"a\r\r"', "refused 1")]), (b"a\ncal/\r\na\r\ncal/", [a, bad_cal, bad, cal]), (b"\r\na\n", [none, a]),
                              (b"a\r\na\n\r\n\n", [bad, a, none, ("", "refused 1")]), (bom + b"\na\r\n", [(bom, "nothing"), bad]),
                              (bom + b"\r\na\n", [(b'"' + bom + b'\\r"', "refused 1"), a])):
        trial.answers(f"CRLF ends {listing!r}", ["ignore", "top"], listing, expected)
    trial.write({"values": b"* fill=v\r\n"})
    trial.answers("CRLF ends on both sides", ["attribute", "fill", "values"], b"a\r\na\n", [bad, ("a", "value v", "a", "values", 1)])


def quoting(trial):
    """Quoted in the path, in the entry, in the file's name and in a value. A path with a control byte is refused, and shown so all the same."""
    for text, shown in QUOTED:
        assert field(text) == shown, f"the tests' own quoting of {text!r}"
        value = re.sub(rb"[\t\r ]", b"", text)
        trial.write({text: b"*\n", "values": b"* fill=" + value + b"\n"})
        trial.answers(f"quoting {text!r}", ["ignore", text], text + b"\n", [answer(text, "ignored", shown, shown, 1)])
        below = field(text + b"/")
        trial.answers(f"quoting below {text!r}", ["ignore", text], b"%s/a\n%s/\n" % (text, text),
                      [answer(text + b"/a", "ignored", below, shown, 1), answer(text + b"/", "ignored", below, shown, 1)])
        trial.answers(f"quoting a file's name {text!r}", ["ignore", text], b"a\n", [("a", "ignored", "a", shown, 1)])
        trial.answers(f"quoting a value {text!r}", ["attribute", "fill", "values"], b"a\n", [("a", b"value " + field(value), "a", "values", 1)])
    trial.write({"top": b"*\n"})
    trial.answers("byte 0 in a path", ["ignore", "top"], b"a\0b\na\n", [(rb'"a\000b"', "refused 1"), ("a", "ignored", "a", "top", 1)])
    trial.answers("CR and the slash", ["ignore", "top"], b"cal/\r\n", [(rb'"cal/\r"', "refused 1")])


def every_byte(trial):
    """No byte of a path breaks the line or its fields; at every place, by both questions, the control bytes are refused and no other is."""
    trial.write({"top": b"".join(pattern + b"\n" for _, _, pattern in PLACES), "values": b"".join(pattern + b" fill\n" for _, _, pattern in PLACES)})
    for line, (front, behind, _) in enumerate(PLACES, 1):
        # A newline ends the path, `/` cuts it, and `.` alone is refused.
        paths = [front + bytes([byte]) + behind for byte in range(256) if byte not in b"\n./"]
        trial.answers(f"every byte, line {line}", ["ignore", "top"], b"\n".join(paths), [answer(path, "ignored", field(path), "top", line) for path in paths])
        trial.answers(f"every byte, value {line}", ["attribute", "fill", "values"], b"\n".join(paths),
                      [answer(path, "set", field(path), "values", line) for path in paths])


def every_byte_of_names(trial):
    """Nor does a byte of a rule file's name, or of a value; there the control bytes are no refusal."""
    names = [bytes([byte]) + b"x" for byte in range(1, 256) if byte != ord("/")]
    trial.write({name: b"*\n" for name in names})
    words = [word for number, name in enumerate(names) for word in ("--in", f"d{number}", name)]
    trial.answers("every byte of a name", ["ignore", *words], b"".join(b"d%d/a\n" % number for number in range(len(names))),
                  [(f"d{number}/a", "ignored", f"d{number}/a", field(name), 1) for number, name in enumerate(names)])
    # Blanks would end the value.
    values = [bytes([byte]) + b"x" for byte in range(1, 256) if byte not in b"\t\n\r "]
    trial.write({"values": b"".join(b"v%d fill=%s\n" % pair for pair in enumerate(values))})
    trial.answers("every byte of a value", ["attribute", "fill", "values"], b"".join(b"v%d\n" % number for number in range(len(values))),
                  [(f"v{number}", b"value " + field(value), f"v{number}", "values", number + 1) for number, value in enumerate(values)])


def through_pipes(trial):
    """The same answers as installed, with output that another program reads."""
    trial.write({"top": b"cal/\n"})
    trial.asked += 1
    done = trial.run(["ignore", "top"], b"cal/a\n" * 30000, installed=True)
    if (done.stdout, done.stderr, done.returncode) != (b"cal/a\tignored\tcal/\ttop\t1\n" * 30000, b"", 0):
        trial.fault("as installed", f"status {done.returncode}, {len(done.stdout)} bytes, said {done.stderr!r}")


def at_once(trial):
    """What can be answered is answered before the listing goes on: somebody may be typing it."""
    trial.write({"top": b"cal/\n"})
    trial.asked += 1
    running = subprocess.Popen([str(trial.program), "ignore", "top"], cwd=trial.folder, stdin=subprocess.PIPE, stdout=subprocess.PIPE)
    os.write(running.stdin.fileno(), b"cal/\nunfinish")
    ready, _, _ = select.select([running.stdout], [], [], 20)
    first = os.read(running.stdout.fileno(), 1000) if ready else b"nothing"
    rest, _ = running.communicate(b"ed\n", timeout=60)
    if (first, rest) != (b"cal/\tignored\tcal/\ttop\t1\n", b"unfinished\tnothing\n"):
        trial.fault("answers at once", f"first {first!r}, then {rest!r}")


def broken_off(trial):
    """A listing that fails behind some lines: those are answered, the unfinished one is not, and it is said."""
    trial.write({"top": b"*\n"})
    trial.asked += 1
    master, slave = pty.openpty()
    tty.setraw(slave)
    os.write(slave, b"a\nb\nunfinished")
    os.close(slave)
    done = trial.run(["ignore", "top"], installed=True, stdin=master, stderr=subprocess.PIPE)
    os.close(master)
    if done.stdout != b"a\tignored\ta\ttop\t1\nb\tignored\tb\ttop\t1\n" or done.returncode != 2:
        trial.fault("a listing that breaks off", f"status {done.returncode}, answered {done.stdout!r}")
    if not re.fullmatch(rb"whichline: standard input: [^\n]+\n", done.stderr):
        trial.fault("a listing that breaks off", f"said {done.stderr!r}")


def check(trial):
    for part in (ends, crlf, quoting, every_byte, every_byte_of_names, through_pipes, at_once, broken_off):
        part(trial)
