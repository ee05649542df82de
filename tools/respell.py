#!/usr/bin/env python3
"""Writes the repository's definitions and lemmas in today's spelling.

usage: python3 tools/respell.py [TOP]

names.txt, beside this file, has a line for each name: the old one and the new one. Every whole name that stands in it is
turned, all at once, in the .antt and .rt files below TOP/crates, outside comments and strings. Run it once, after
port.py. What the program's own functions are called is not touched: no name of theirs stands in names.txt as an old one.
"""

import os
import re
import sys

HERE = os.path.dirname(os.path.realpath(__file__))
NAME = re.compile(r'[^\s(){}\[\].;,"`]+')
ANTT = re.compile(r'(?:(?<=\s)|^)--(?=\s|$).*|"[^"\n]*"', re.M)
RUST = re.compile(r'//.*|b?"(?:[^"\\\n]|\\.)*"')


def names():
    with open(os.path.join(HERE, "names.txt"), encoding="utf-8") as f:
        return dict(line.split() for line in f if not line.startswith("#"))


def respelled(text, apart, table):
    """The text with the names of the table turned, but for the stretches that `apart` finds."""
    out, at = [], 0
    turn = lambda piece: NAME.sub(lambda m: table.get(m.group(), m.group()), piece)
    for m in apart.finditer(text):
        out += [turn(text[at : m.start()]), m.group()]
        at = m.end()
    return "".join(out) + turn(text[at:])


def main():
    top = sys.argv[1] if len(sys.argv) > 1 else os.path.dirname(HERE)
    if os.path.exists(os.path.join(top, "docs", "PORT.md")):
        sys.exit("respell: this tree has been turned already, and some new names are old names of others: nothing was written")
    table, changed = names(), 0
    for folder, dirs, files in os.walk(os.path.join(top, "crates")):
        dirs[:] = [d for d in dirs if d != "out"]
        for name in files:
            if not name.endswith((".antt", ".rt")):
                continue
            path = os.path.join(folder, name)
            with open(path, encoding="utf-8") as f:
                text = f.read()
            new = respelled(text, ANTT if name.endswith(".antt") else RUST, table)
            if new != text:
                changed += 1
                with open(path, "w", encoding="utf-8") as f:
                    f.write(new)
    print(f"respell: {changed} files changed")


main()
