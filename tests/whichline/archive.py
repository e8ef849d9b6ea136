"""Random archives: rule files with the directories that they stand in, and a listing."""
from program import CONTROLS

NAMES = [b"cal", b"sky", b"skyline", b"north", b"h07.jpg", b"h17.nc", b"a.tmp", b"Cal", b"SKY", b"a b", b"\xc3\xa9"]
ODD_NAMES = [b'"q', b'"a\\b', b'"\\', b'"c d"', b"~", b'""', b"\\", b"[a]", b"*", b"!a", b"#a", b"...", b"-a", b"\x80", b"\xff", b" "]
CLASSES = [b"[a-z]", b"[!x]", b"[^a-c]", b"[[:alpha:]]", b"[0-9h]", b"[![:digit:]]", b"[]c]"]
# Where document 01 and git differ, or a line says nothing: the twin alone judges these.
ODD_PATTERNS = [b"sk**/north", b"sk***/north", b"[", b"[a-z", b"[[:x:]]", b"\\", b"cal\\/", b"\\Cal", b"[C]al", b"a\\ ", b"*.tmp \\", b"/", b"//", b"!", b"a//b", b"[[:space:]]", b"[sS-k]ky",
                b"cal\t", b"[\x01-\x1f]", b"[!\x01-\x7f]"]
ODD_ATTRIBUTES = [b"[attr]macro fill", b'"cal" fill', b"!cal fill", b"* -", b"* fill =v", b"* fill -fill fill=last", b"* fill=a=b", b"\t * \t fill\r", b"* fill=\x01\x7f"]
BAD_PATHS = [b"", b"/", b"//", b"/cal", b"cal//a", b"cal//", b".", b"./cal", b"cal/..", b"cal/../sky", b"a\0b", b"sky/./north/",
             b"cal\r", b"cal/\r", b"\r", b"a\tb/a", b"\x7f"]
BOM = b"\xef\xbb\xbf"


def component(rnd, names):
    name = rnd.choice(names)
    return rnd.choice((name, name, name, name, name, name, b"*", name[:1] + b"*", b"*" + name[1:], b"?" * len(name), rnd.choice(CLASSES) + name[1:]))


def pattern(rnd, names):
    """A pattern that means the same to git and to document 01, as long as a run of two or more stars is a whole component."""
    if rnd.random() < .45:
        text = component(rnd, names)
    else:
        text = rnd.choice((b"/", b"")) + b"/".join(rnd.choice((component(rnd, names), component(rnd, names), b"*" * rnd.choice((2, 2, 3, 5)))) for _ in range(rnd.randint(1, 3)))
    return text + (b"/" if rnd.random() < .25 else b"")


def ignore_line(rnd, names, odd):
    kind = rnd.random()
    if kind < .1:
        return rnd.choice((b"", b"# cal", b"   "))
    text = rnd.choice(ODD_PATTERNS) if odd and kind < .25 else pattern(rnd, names)
    return (b"!" if rnd.random() < .35 else b"") + text + (rnd.choice((b" ", b"  ")) if rnd.random() < .1 else b"")


def attribute_line(rnd, names, place):
    """Values name the file and the line."""
    if rnd.random() < .15:
        return rnd.choice(ODD_ATTRIBUTES)
    words = [rnd.choice((b"fill", b"-fill", b"!fill", b"fill=" + place, b"gap")) for _ in range(rnd.randint(1, 3))]
    return b" ".join([pattern(rnd, names).replace(b" ", b"?")] + words)


def rule_file(rnd, line):
    """The bytes of a rule file; `line` makes the one of a number."""
    newline = b"\r\n" if rnd.random() < .15 else b"\n"
    text = newline.join(line(number + 1) for number in range(rnd.choice((0, 1, 1, 2, 2, 3, 6))))
    return (BOM if rnd.random() < .1 else b"") + text + (newline if rnd.random() < .7 else b"")


def path(rnd, names):
    return b"/".join(rnd.choice(names) for _ in range(rnd.randint(1, 4)))


def with_control(rnd, text):
    """The path, one byte of it a control byte; not the newline, which would end it."""
    at = rnd.randrange(len(text))
    return text[:at] + bytes([rnd.choice([byte for byte in CONTROLS if byte != ord("\n")])]) + text[at + 1:]


class Archive:
    """What the program is asked in one call. `files` lists name, directory and bytes, lowest first."""

    def __init__(self, rnd):
        self.rnd, self.large = rnd, 0
        self.known = rnd.sample(NAMES, 4)
        self.names = self.known + rnd.sample(ODD_NAMES, 2)
        self.fold = rnd.random() < .4
        name = b"fill" if rnd.random() < .8 else rnd.choice((b"gap", b"fil", b"", b"-fill", b"f" * 256))
        self.attribute = rnd.choice((None, name))
        count = rnd.choice((1, 2, 3, 4, 6, 10)) if rnd.random() < .95 else rnd.randint(120, 200)
        self.files = [(self.name(number), self.directory(), self.content(number)) for number in range(count)]
        self.listing = [self.line() for _ in range(rnd.choice((0, 1, 50, 100, 100)))]
        # An empty last line is one only with its newline.
        self.last_newline = rnd.random() < .7 or self.listing[-1:] == [b""]

    def name(self, number):
        return self.rnd.choice((b"r%d", b"r%d", b"rules %d", b'"%d', b"r\t%d", b"\xe9%d", b"-%d", b"\x7f\n\r%d")) % number

    def directory(self):
        return b"" if self.rnd.random() < .4 else b"/".join(self.rnd.choice(self.names) for _ in range(self.rnd.choice((1, 1, 1, 2, 3))))

    def content(self, number):
        kind = self.rnd.random()
        if kind < .03:
            return self.rnd.choice((b"*\n\0", b"\0*", b"a" * 2049, b"*\n" + b" " * 2049 + b"\n"))
        if kind < .06 and self.large < 3:
            self.large += 1
            return b"*\n" + b"# cal\n" * self.rnd.choice((5460, 10920)) + b"!sky\n"
        if self.attribute is None:
            return rule_file(self.rnd, lambda _: ignore_line(self.rnd, self.known, True))
        return rule_file(self.rnd, lambda line: attribute_line(self.rnd, self.known, b"v%d.%d" % (number, line)))

    def line(self):
        kind = self.rnd.random()
        if kind < .045:
            return self.rnd.choice(BAD_PATHS)
        if kind < .05:
            return self.rnd.choice(self.names) * self.rnd.choice((1000, 3000, 30000))
        text = self.path()
        return with_control(self.rnd, text) if kind < .065 else text

    def path(self):
        """Often something in or beside the directory of a rule file."""
        front = self.rnd.choice((b"", self.rnd.choice(self.files)[1]))
        joint = self.rnd.choice((b"/", b"/", b"/", b"line", b"")) if front else b""
        return front + joint + path(self.rnd, self.names) + self.rnd.choice((b"", b"", b"/"))

    def words(self):
        """The program's arguments; `--fold` stands anywhere among the files."""
        groups = [["--in", directory + self.rnd.choice((b"", b"/")), name] if directory else [name] for name, directory, _ in self.files]
        if self.fold:
            groups.insert(self.rnd.randint(0, len(groups)), ["--fold"])
        asked = ["ignore"] if self.attribute is None else ["attribute", self.attribute]
        return asked + [word for group in groups for word in group]

    def bytes(self):
        return b"\n".join(self.listing) + (b"\n" if self.listing and self.last_newline else b"")
