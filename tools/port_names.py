#!/usr/bin/env python3
"""Brings this repository's own definitions and lemmas to today's spelling: words in snake case, types and modules in camel case.

usage: python3 tools/port_names.py        at the top of the repository, once, after the upgrade to today's Rattle

It renames what the .antt files of crates/ declare, wherever these names stand in .antt, .rt and .edit files:
- a name that begins with a small letter loses its capitals: sameBytes becomes same_bytes;
- a dash stays only between two names of definitions, as in from-drop, and is `_` before a plain word, as in has_at.
Answers to goals (in proofs/F/Proof.antt) have the names that Rattle gives, and stay, as do functions of src/ and strings.
It prints what it renamed. A lemma that would have a definition's name gets _lem; it stops before it writes if two names fall together all the same.
"""

import os
import re
import sys

ID = r"[^\W\d][\w'₀-₉-]*"
TOKEN = re.compile(rf"(?<![\w'-]){ID}")
DECLARED = re.compile(rf"^(\s*)((?:(?:abbrev|unfoldable|pub|private|record|data) )*)({ID}) :(?= |$)", re.M)
# Words of the library that our lemmas are about, beside our own definitions.
LIBRARY = set("length take drop get_or append set map lower upper".split())


def files():
    for folder, below, names in os.walk("crates"):
        below[:] = sorted(d for d in below if d != "out")
        for name in sorted(names):
            if name.endswith((".antt", ".rt", ".edit")):
                yield os.path.join(folder, name)


def read(path):
    with open(path, encoding="utf-8") as f:
        return f.read()


def snake(word):
    word = re.sub(r"^getD", "get_or", word)
    return re.sub(r"(?<=[a-z0-9])([A-Z])", lambda m: "_" + m[1].lower(), word)


def spelled(name, definitions):
    parts = name.split("-")
    if name[0].islower():
        parts = [snake(p) for p in parts]
    out = parts[0]
    for before, part in zip(parts, parts[1:]):
        out += ("-" if before in definitions and part in definitions else "_") + part
    return out


def renamed(text, names, comment):
    """The text with its names turned. Strings stay; in a comment only what can't be a plain word is a name: capitals, or a dash between backticks."""
    whole = re.compile(rf'(b?"(?:\\.|[^"\\\n])*")|({comment}[^\n]*)' if comment else r'(b?"(?:\\.|[^"\\\n])*")|(\Z.)')
    out, at = [], 0
    for m in whole.finditer(text):
        out.append(TOKEN.sub(lambda w: names.get(w[0], w[0]), text[at : m.start()]))
        if m[1]:
            out.append(m[1])
        else:
            in_backticks = re.split(r"(`[^`]*`)", m[2])
            for k, piece in enumerate(in_backticks):
                out.append(TOKEN.sub(lambda w: names.get(w[0], w[0]) if k % 2 or "-" not in w[0] else w[0], piece))
        at = m.end()
    out.append(TOKEN.sub(lambda w: names.get(w[0], w[0]), text[at:]))
    return "".join(out)


def main():
    texts = {p: read(p) for p in files()}
    declared, definitions = set(), set(LIBRARY)
    for path, text in texts.items():
        if not path.endswith(".antt"):
            continue
        answers = path.endswith("/Proof.antt")
        for m in DECLARED.finditer(text):
            name = m[3]
            if answers and "-" in name:
                continue
            declared.add(name)
            # A definition, a constructor or a field, and not a lemma.
            if "abbrev" in m[2] or "unfoldable" in m[2] or "record" in m[2] or "data" in m[2] or ("/specs/" in path and m[1]):
                definitions.add(snake(name) if name[0].islower() else name)
    # What edits say of definitions that the upgrade renamed is brought along by the same rule.
    edits = {w for p, t in texts.items() if p.endswith(".edit") for w in TOKEN.findall(t) if w[0].islower() and re.search("[a-z0-9][A-Z]", w)}
    # Names that only `as` brings in, and local ones, in .antt files.
    local = {w for p, t in texts.items() if p.endswith(".antt") and not p.endswith("/Proof.antt") for w in TOKEN.findall(t) if w[0].islower() and re.search("[a-z0-9][A-Z]", w)}
    brought = {m for p, t in texts.items() if p.endswith(".rt") for line in re.findall(r"^ghost use .*$", t, re.M) for m in re.findall(rf" as ({ID})", line)}
    names, taken = {}, set(declared)
    for name in sorted(declared | edits | local | brought, key=lambda n: ("-" in n, n)):
        new = spelled(name, definitions)
        if new == name:
            continue
        # What edits say is an older name of the same thing; a lemma that would have a definition's name gets _lem.
        if new in taken and name in declared:
            new += "_lem"
        if new in taken and name in declared:
            print("falls together:", name, new)
            return 1
        taken.add(new)
        names[name] = new
    for path, text in texts.items():
        new = renamed(text, names, {".antt": r"(?:(?<=\s)|^)--(?=\s)", ".rt": "//"}.get(os.path.splitext(path)[1]))
        if new != text and "--dry" not in sys.argv:
            with open(path, "w", encoding="utf-8") as f:
                f.write(new)
    for a, b in sorted(names.items()):
        print(a, "->", b)
    return 0


if __name__ == "__main__":
    raise SystemExit(main())
