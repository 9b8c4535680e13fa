#!/usr/bin/env python3
"""Brings the repository's own definitions and lemmas to one spelling: words in snake case, types in camel case.

usage: python3 tools/respell.py [FOLDER]

Run once, after the kit's port.py, at the top of the repository (or on FOLDER). tools/respell.txt has a line 'OLD NEW' for each name. Comments, strings
and Rust code keep what they have: in a .rt file only the braces of clauses and the lines of `ghost use` hold names with a dash or an inner capital.
In the proof of a function `.x-is` is a name that the checker makes, and stays.
"""

import os
import re
import sys

HERE = os.path.dirname(os.path.realpath(__file__))
TOKEN = re.compile(r"\"(?:[^\"\\\n]|\\.)*\"|(?<![\w'′])[^\W\d][\w'′]*(?:-[\w'′*+]+)*")


def table():
    with open(os.path.join(HERE, "respell.txt"), encoding="utf-8") as f:
        return dict(line.split() for line in f if line.strip())


def texts(root):
    for folder, dirs, files in os.walk(os.path.join(root, "crates")):
        dirs[:] = sorted(d for d in dirs if d not in ("out", ".git"))
        for name in sorted(files):
            if name.endswith((".rt", ".antt")):
                yield os.path.join(folder, name)


def respell(line, names, mark, made):
    """One line, but for its comment; `made` says that the checker's own names stand beside the repository's."""
    code, comment = line, ""
    at = line.find(mark)
    while at > 0 and line[:at].count('"') % 2:
        at = line.find(mark, at + 1)
    if at >= 0:
        code, comment = line[:at], line[at:]

    def put(m):
        word = m.group()
        if word.startswith('"') or (made and word.endswith("-is") and code[m.start() - 1 : m.start()] == "."):
            return word
        return names.get(word, word)

    return TOKEN.sub(put, code) + comment


def main(root):
    names = table()
    changed = 0
    for path in texts(root):
        with open(path, encoding="utf-8") as f:
            old = f.read()
        parts = os.path.relpath(path, os.path.join(root, "crates")).split(os.sep)
        made = parts[1] == "proofs" and len(parts) > 3
        mark = "--" if path.endswith(".antt") else "//"
        new = "".join(respell(line, names, mark, made) for line in old.splitlines(keepends=True))
        if new != old:
            with open(path, "w", encoding="utf-8") as f:
                f.write(new)
            changed += 1
    print(f"respell: {changed} files changed")


if __name__ == "__main__":
    main(sys.argv[1] if len(sys.argv) > 1 else ".")
