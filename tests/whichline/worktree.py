"""What git says in a work tree, as the program should say it of the same rule files.

The patterns of archive.py mean the same to git and to document 01; tests/git/questions names what is left out. Paths below a
file are left out too: git does not ask about them. Git is asked about a directory without its last `/`, with which it gives
another answer (README.md's known differences).
"""
import os
import subprocess

import archive

EXCLUDE = b".git/info/exclude"


class Tree:
    """A work tree with rule files: `rules` lists source and directory, lowest first."""

    def __init__(self, rnd, top):
        self.rnd, self.root, self.fold = rnd, os.path.join(os.fsencode(top), b"tree"), rnd.random() < .4
        self.env = {"PATH": os.environ["PATH"], "HOME": top, "GIT_CONFIG_GLOBAL": os.devnull, "GIT_CONFIG_NOSYSTEM": "1", "LC_ALL": "C"}
        subprocess.run([b"git", b"init", b"-q", b"--template=", self.root], env=self.env, check=True)
        os.mkdir(os.path.join(self.root, b".git/info"))
        self.names, self.directories, self.files = rnd.sample(archive.NAMES, 5), [], []
        for _ in range(rnd.randint(3, 15)):
            self.grow()
        lowest = os.path.join(os.fsencode(top), b"lowest")
        inside = sorted((d for d in self.directories if rnd.random() < .6), key=lambda d: d.count(b"/"))
        self.rules = [(lowest, b""), (EXCLUDE, b""), (b".gitignore", b"")] + [(d + b"/.gitignore", d) for d in inside]
        for source, _ in self.rules:
            with open(os.path.join(self.root, source), "wb") as out:
                out.write(archive.rule_file(rnd, lambda _: archive.ignore_line(rnd, self.names, False)))

    def grow(self):
        """One directory or file more, in one that is there."""
        new = b"/".join(part for part in (self.rnd.choice(self.directories + [b""]), self.rnd.choice(self.names)) if part)
        if os.path.lexists(os.path.join(self.root, new)):
            return
        if self.rnd.random() < .6:
            os.mkdir(os.path.join(self.root, new))
            self.directories.append(new)
        else:
            open(os.path.join(self.root, new), "wb").close()
            self.files.append(new)

    def listing(self):
        """What is there, a directory with its slash, and files that are not."""
        known = set(self.directories + self.files)
        missing = {archive.path(self.rnd, self.names) for _ in range(25)}
        missing |= {d + b"/" + archive.path(self.rnd, self.names) for d in self.directories}
        fits = [p for p in sorted(missing) if p not in known and not any(p.startswith(f + b"/") for f in self.files)]
        return [d + b"/" for d in self.directories] + self.files + fits

    def words(self):
        """The program's arguments; the files are named as git names them."""
        groups = [[b"--in", directory, source] if directory else [source] for source, directory in self.rules]
        return [b"ignore", *([b"--fold"] if self.fold else []), *[word for group in groups for word in group]]

    def judge(self, listing):
        """Verdict, source and line for each path. Git finds out by itself what is a directory."""
        settings = {b"core.ignorecase": b"true" if self.fold else b"false", b"core.excludesFile": self.rules[0][0]}
        config = [word for key, value in settings.items() for word in (b"-c", key + b"=" + value)]
        asked = [b"check-ignore", b"--no-index", b"-v", b"-n", b"-z", b"--stdin"]
        done = subprocess.run([b"git", b"-C", self.root, *config, *asked], input=b"".join(p.rstrip(b"/") + b"\0" for p in listing),
                              env=self.env, capture_output=True)
        fields = done.stdout.split(b"\0")[:-1]
        said = zip(fields[::4], fields[1::4], fields[2::4])
        return [(b"re-included" if p.startswith(b"!") else b"ignored", source, line) if source else (b"nothing",) for source, line, p in said]
