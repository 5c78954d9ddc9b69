#!/usr/bin/env python3
"""Gives the repository's own definitions and lemmas today's spelling: facts and types in upper camel case,
all else in snake case, and a dash only where a lemma is named after two functions (length-concepts).

usage: python3 docs/history/respell.py   at the top of the repository, once, after the kit's port.py

It goes by docs/history/respell.names, a line 'OLD NEW' for each name, in the .rt and .antt files of crates/. Functions of src/,
strings and comments of src/ keep their words; comments of specs/ and proofs/ follow the definitions that they name.
"""

import os
import re

HERE = os.path.dirname(os.path.abspath(__file__))
WORD = re.compile(r"[A-Za-z_][\w'-]*")


def names():
    with open(os.path.join(HERE, "respell.names"), encoding="utf-8") as f:
        return dict(line.split() for line in f if line.strip())


def turned(text, table):
    return WORD.sub(lambda m: table.get(m.group(0), m.group(0)), text)


def ghost_lines(text, table):
    """The lines of a source that are read as contracts; comments and code stay."""
    out = []
    for line in text.split("\n"):
        code, sep, comment = line.partition("//")
        out.append(turned(code, table) + sep + comment if '"' not in code else line)
    return "\n".join(out)


def main():
    table = names()
    for folder, dirs, files in os.walk("crates"):
        dirs[:] = sorted(d for d in dirs if d != "out")
        for name in sorted(files):
            if not name.endswith((".rt", ".antt")):
                continue
            path = os.path.join(folder, name)
            with open(path, encoding="utf-8") as f:
                old = f.read()
            new = ghost_lines(old, table) if name.endswith(".rt") else turned(old, table)
            if new != old:
                with open(path, "w", encoding="utf-8") as f:
                    f.write(new)


if __name__ == "__main__":
    main()
