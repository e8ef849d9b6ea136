"""Asks for every case of answers.txt, which says how it is written."""
import pathlib
import re
import shlex

from program import field

TABLE = pathlib.Path(__file__).resolve().parent / "answers.txt"


def spelled(text):
    return text.encode("latin-1").decode("unicode_escape").encode("latin-1")


def rule_file(line):
    """The name and the bytes of a rule file."""
    found = re.fullmatch(r"([^:$]+)(::?)(?: (.*))?", line)
    assert found, f"answers.txt: not understood: {line}"
    name, sign, text = found.groups(default="")
    content = text if sign == "::" else "".join(part + "\\n" for part in text.split(" | "))
    return spelled(name), spelled(content)


def questions():
    """Title, files, words, and the paths with the fields that follow them, for each question of the table."""
    title, files, asked = "", {}, []
    for line in re.findall(r"^[^#\n].*", TABLE.read_text(), re.M):
        if line.startswith("= "):
            title, files = line[2:], {}
        elif line.startswith("$ "):
            asked.append((title, dict(files), [spelled(word) for word in shlex.split(line[2:])], []))
        elif " -> " in line:
            path, _, fields = line.partition(" -> ")
            asked[-1][3].append((spelled(path), [spelled(field) for field in fields.split(" | ")]))
        else:
            name, content = rule_file(line)
            files[name] = content
    return asked


def check(trial):
    for title, files, words, paths in questions():
        assert paths, f"{title}: a question without paths"
        trial.write(files)
        listing = b"".join(path + b"\n" for path, _ in paths)
        trial.answers(f"{title}: {b' '.join(words).decode(errors='replace')}", words, listing, [(field(path), *fields) for path, fields in paths])
