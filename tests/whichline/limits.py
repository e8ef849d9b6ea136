"""Both sides of every limit: refusals 2 to 6, the lengths of paths and of lines in the listing, the bytes of a path."""
from program import CONTROLS, field

RULES = 65536
LINE = 2048
PATH = 4096
KEPT = 8192
# In short paths a byte is put at every place: the program looks at them in parts.
SHORT = 70


def files_above(trial):
    """64 files above a path are read, 65 refused; what stands elsewhere does not count."""
    trial.write({"top": b"a\n", "sky": b"!a\n"})
    for count, said in ((63, ("re-included", "sky/a", "sky", 1)), (64, ("refused 2",))):
        words = ["ignore", *["top"] * count, "--in", "sky", "sky"]
        trial.answers(f"{count} files at the top and one in sky", words, b"sky/a\na\nsky\nsky/a\r\n",
                      [("sky/a", *said), ("a", "ignored", "a", "top", 1), ("sky", "nothing"), (rb'"sky/a\r"', "refused 1")])
    words = ["ignore", *["top"] * 64, *["--in", "sky", "sky"] * 192]
    trial.answers("256 files, 64 above a path", words, b"a\nsky/a\nb\n", [("a", "ignored", "a", "top", 1), ("sky/a", "refused 2"), ("b", "nothing")])


def rule_bytes(trial):
    """65,536 bytes above a path are read, one more is refused; each file alone may have as many."""
    half = b"#\n" * (RULES // 4)
    trial.write({"half": half, "rest": half[:-2] + b"a\n", "more": b"\n", "whole": half + half[:-2] + b"b\n", "none": b""})
    line = RULES // 4
    trial.answers("65,536 bytes in two files", ["ignore", "half", "rest", "none"], b"a\n", [("a", "ignored", "a", "rest", line)])
    trial.answers("65,537 bytes in three files", ["ignore", "half", "rest", "more"], b"a\n/a\na\r\n", [("a", "refused 3"), ("/a", "refused 1"), (rb'"a\r"', "refused 1")])
    trial.answers("65,536 bytes in one file", ["ignore", "whole"], b"b\n", [("b", "ignored", "b", "whole", 2 * line)])
    words = ["ignore", "whole", "--in", "sky", "more", "--in", "cal", "whole"]
    trial.answers("files elsewhere do not count", words, b"b\nsky/b\nsky\ncal/b\n",
                  [("b", "ignored", "b", "whole", 2 * line), ("sky/b", "refused 3"), ("sky", "nothing"), ("cal/b", "refused 3")])
    words = ["ignore", *[word for place in "abcd" for word in ("--in", place, "whole")]]
    trial.answers("262,144 bytes together", words, b"d/b\ne/b\n", [("d/b", "ignored", "d/b", "whole", 2 * line), ("e/b", "nothing")])


def rule_lines(trial):
    """A line of 2,048 bytes is read, one of 2,049 refused, whichever file has it."""
    start, tail = b"a" + b" " * (LINE - 1), b"#" * LINE
    trial.write({"read": start + b"\n", "last": tail, "long": start + b" \n", "longer": tail + b"#", "cr": start + b"\r\n", "top": b"a\n",
                 "bom": b"\xef\xbb\xbf" + start[:-3] + b"\n", "bom+": b"\xef\xbb\xbf" + start[:-2] + b"\n"})
    trial.answers("lines of 2,048 bytes", ["ignore", "read", "last", "bom"], b"a\n", [("a", "ignored", "a", "bom", 1)])
    for name in ("long", "longer", "cr", "bom+"):
        trial.answers(f"a line of 2,049 bytes: {name}", ["ignore", "top", "--in", "sky", name], b"a\nsky/a\n",
                      [("a", "ignored", "a", "top", 1), ("sky/a", "refused 5")])
    # Where one file ends and the next begins there is no line of both.
    trial.answers("two ends of lines", ["ignore", "last", "last", "top"], b"a\n", [("a", "ignored", "a", "top", 1)])


def byte_zero(trial):
    trial.write({"nul": b"\0", "end": b"a\n\0", "one": b"\1\na\n"})
    trial.answers("byte 0", ["ignore", "nul"], b"a\n", [("a", "refused 4")])
    trial.answers("byte 0 at the end", ["attribute", "fill", "one", "end"], b"a\n", [("a", "refused 4")])
    trial.answers("byte 1", ["ignore", "one"], b"a\n", [("a", "ignored", "a", "one", 2)])
    # What is refused in a path is none of this refusal.
    lines = [b"z%c" % byte for byte in CONTROLS if byte not in b"\0\n"]
    trial.write({"lines": b"\n".join(lines) + b"\na\n", "values": b"".join(b"a fill=%s\n" % line for line in lines)})
    trial.answers("control bytes in lines", ["ignore", "lines"], b"a\nb\n", [("a", "ignored", "a", "lines", len(lines) + 1), ("b", "nothing")])
    trial.answers("control bytes in values", ["attribute", "fill", "values"], b"a\nb\n", [("a", b"value " + field(lines[-1]), "a", "values", len(lines)), ("b", "nothing")])


def names(trial):
    """A name of 255 bytes is asked for, a longer one refused."""
    name = "x" * 255
    trial.write({"top": b"* " + name.encode() + b"\n"})
    trial.answers("a name of 255 bytes", ["attribute", name, "top"], b"a\n", [("a", "set", "a", "top", 1)])
    for longer in (256, 4096, 4097, 9000):
        trial.answers(f"a name of {longer} bytes", ["attribute", "x" * longer, "top"], b"a\n", [("a", "refused 6")])


def paths(trial):
    """4,096 bytes are a path, also with a slash behind it; 4,097 are none."""
    trial.write({"top": b"*\n", "deep": b"!*\n"})
    whole = b"sky/" + b"a" * (PATH - 4)
    words = ["ignore", "--in", "sky", "deep"]
    for path, said in ((whole, ("re-included", whole, "deep", 1)), (whole + b"a", ("refused 1",)), (whole + b"/", ("re-included", whole + b"/", "deep", 1)),
                       (whole + b"a/", ("refused 1",)), (whole + b"//", ("refused 1",))):
        trial.answers(f"a path of {len(path)} bytes", words, path + b"\nsky/z\n", [(path, *said), ("sky/z", "re-included", "sky/z", "deep", 1)])
    deep = b"/".join([b"d"] * (PATH // 2)) + b"/"
    trial.answers("a deep path", ["ignore", "top"], deep, [(deep, "ignored", "d/", "top", 1)])
    below = b"e" * (PATH - 2)
    trial.answers("a file in the longest directory", ["ignore", "--in", below, "top"], below + b"/f\n", [(below + b"/f", "ignored", below + b"/f", "top", 1)])


def path_bytes(trial):
    """31 and 127 are refused, 32, 126 and 128 taken, wherever they stand in a path of any length."""
    trial.write({"top": b"*\n"})
    places = [(at, length) for length in range(1, SHORT) for at in range(length)]
    places += [(at, length) for length in (100, 1000, PATH - 1, PATH) for at in (0, length // 2, length - 1)]
    for byte, taken in ((31, False), (32, True), (126, True), (127, False), (128, True), (13, False), (255, True)):
        paths = [b"p" * at + bytes([byte]) + b"p" * (length - at - 1) for at, length in places]
        said = [("ignored", field(path), "top", 1) if taken else ("refused 1",) for path in paths]
        trial.answers(f"byte {byte} in paths", ["ignore", "top"], b"".join(path + b"\n" for path in paths),
                      [(field(path), *fields) for path, fields in zip(paths, said)])


def long_lines(trial):
    """A line of the listing has one answer, however long it is, and nothing behind it is lost."""
    trial.write({"top": b"*\n"})
    last = ("z", "ignored", "z", "top", 1)
    for length in (KEPT - 1, KEPT, KEPT + 1, KEPT + 2, RULES - 1, RULES, RULES + 1, 200000, 3000000):
        for byte in (b"a", b"/", b"\1"):
            line = byte * length
            shown = field(line) if length <= KEPT else field(line[:KEPT]) + b"..."
            trial.answers(f"a line of {length} bytes {byte!r}", ["ignore", "top"], b"z\n" + line + b"\nz\n" + line, [last, (shown, "refused 1")] * 2)
    many = [b"a" * (n % 9000 + 1) for n in range(0, 60000, 331)]
    trial.answers("lines of many lengths", ["ignore", "top"], b"\n".join(many) + b"\n", [
        (path, "ignored", path, "top", 1) if len(path) <= PATH else (path if len(path) <= KEPT else path[:KEPT] + b"...", "refused 1") for path in many])


def check(trial):
    for part in (files_above, rule_bytes, rule_lines, byte_zero, names, paths, path_bytes, long_lines):
        part(trial)
