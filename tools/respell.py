#!/usr/bin/env python3
"""Respells definitions and lemmas: words in snake case, a dash only behind a word of the library's lists.

usage: python3 tools/respell.py [FOLDER]     rewrites the .rt and .antt files below FOLDER/crates (default: here)

respell.txt beside it has the old and the new name on each line. In specs/ and in clauses three functions of the library
go by the names that specs use throughout. Only whole names are rewritten, in .antt files and in
the ghost lines, clauses and attributes of .rt files, whose own code has none of the names; strings and comments keep theirs.
"""
import os
import re
import sys

HERE = os.path.dirname(os.path.realpath(__file__))
LIBRARY = {"get_or": "slice_index_or", "leb": "nat_le", "ltb": "nat_lt", "room-number": "room_number"}
BREAKS = r"\s(){}\[\];,.\"⦃⦄"


def table():
    with open(os.path.join(HERE, "respell.txt"), encoding="utf-8") as f:
        return dict(line.split() for line in f if line.strip())


def files(root):
    for folder, dirs, names in os.walk(os.path.join(root, "crates")):
        dirs[:] = sorted(d for d in dirs if d not in ("out", ".git", "data"))
        for name in sorted(names):
            if name.endswith((".rt", ".antt")):
                yield os.path.join(folder, name)


def import_once(line):
    """The line, an import in braces, with each name once."""
    m = re.match(r"((?:ghost )?use [^{]*\{)([^}]*)(\}.*)", line)
    if not m:
        return line
    return m.group(1) + ", ".join(dict.fromkeys(m.group(2).split(", "))) + m.group(3)


def respell(text, names, comment):
    token = re.compile(r'"(?:[^"\\\n]|\\.)*"|' + comment + r"[^\n]*|\.?[^" + BREAKS + r"]+")

    def turned(m):
        word = m.group(0)
        dot, name = (".", word[1:]) if word.startswith(".") else ("", word)
        # behind a dot a name in -is is one that the check makes
        if dot and name.endswith("-is"):
            return word
        return dot + names.get(name, name)

    return token.sub(turned, text)


def main(root):
    names = table()
    for path in files(root):
        with open(path, encoding="utf-8") as f:
            old = f.read()
        comment = "--(?=[\\s-]|$)" if path.endswith(".antt") else "//"
        new = respell(old, names, comment)
        if "/specs/" in path or path.endswith(".rt"):
            new = "\n".join(map(import_once, respell(new, LIBRARY, comment).split("\n")))
        if new != old:
            with open(path, "w", encoding="utf-8") as f:
                f.write(new)


if __name__ == "__main__":
    main(sys.argv[1] if len(sys.argv) > 1 else ".")
