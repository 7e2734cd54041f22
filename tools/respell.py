#!/usr/bin/env python3
"""Gives the repository's own definitions and lemmas the spelling that the kit's port.py leaves to it: words in snake case, a dash
only between two names. Run once, at the top, after port.py. respelled.txt has a line for each name: OLD NEW, and for an old name that
is a Rust name too, the folders where it is the lemma's."""

import os
import re
import sys

HERE = os.path.dirname(os.path.realpath(__file__))
TOKEN = re.compile(r"[^\s(){}\[\];,.`λ«»⌜⌝]+")
STRING = re.compile(r'b?"(?:[^"\\\n]|\\.)*"')


def read_names():
    anywhere, inside = {}, {}
    with open(os.path.join(HERE, "respelled.txt"), encoding="utf-8") as lines:
        for line in lines:
            old, new, *folders = line.split()
            if folders:
                inside[old] = (new, tuple(folders))
            else:
                anywhere[old] = new
    return anywhere, inside


ANYWHERE, INSIDE = read_names()


def record_fields(top):
    """The names that stand behind a dot with a dash in them: fields of records."""
    found = set()
    for path in texts(top, (".antt",)):
        with open(path, encoding="utf-8") as f:
            for line in f:
                m = re.match(r"^  (?:pub )?(\S+) : ", line)
                if m:
                    found.add(m[1])
    return found


def texts(top, ends):
    for folder, dirs, files in os.walk(os.path.join(top, "crates")):
        dirs[:] = sorted(d for d in dirs if d != "out")
        for name in sorted(files):
            if name.endswith(ends):
                yield os.path.join(folder, name)


def respell(text, path, fields):
    names = dict(ANYWHERE)
    if not path.endswith(".rt"):
        for old, (new, folders) in INSIDE.items():
            if path.startswith(folders):
                names[old] = new

    def one(m):
        old = m[0]
        new = names.get(old)
        if new is None:
            return old
        before = text[: m.start()]
        if before.endswith(".") and "-" in old:
            owner = re.search(r"([^\s(){}\[\];,.λ]+)\.$", before)
            if not (owner and owner[1][:1].isupper()) and old not in fields:
                return old
        return new

    if not path.endswith(".rt"):
        return TOKEN.sub(one, text)
    out, at = [], 0
    for s in STRING.finditer(text):
        out.append((at, s.start()))
        at = s.end()
    out.append((at, len(text)))
    made, end = [], 0
    for a, b in out:
        made.append(text[end:a])
        made.append(re.sub(TOKEN, lambda m: names.get(m[0], m[0]), text[a:b]))
        end = b
    made.append(text[end:])
    return "".join(made)


def main():
    top = os.getcwd()
    fields = record_fields(top)
    for path in texts(top, (".antt", ".rt", ".edit")):
        short = os.path.relpath(path, top)
        with open(path, encoding="utf-8") as f:
            before = f.read()
        after = respell(before, short, fields)
        if after != before:
            with open(path, "w", encoding="utf-8") as f:
                f.write(after)


if __name__ == "__main__":
    sys.exit(main())
