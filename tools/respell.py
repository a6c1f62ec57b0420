#!/usr/bin/env python3
"""Gives this repository's own definitions, lemmas and fields the spelling of today's Rattle.

usage: tools/respell.py        at the top of a tree that the toolchain's port.py has turned, once

tools/respell.txt has a line for each name, the old and the new: functions, lemmas and fields in snake case, a dash only
beside a word of the library (length, zero, suc) or a type. A lemma that would get the name of a definition ends in _lem.
The table has most names that port.py turns too, since it leaves must-fail/*.edit and the pages as they are.
The names of src/, of files, modules, types and constructors stay. Names are turned in crates/ (.antt, .rt, .edit) and,
between backticks, in the pages for people.
"""
import os
import re
import sys

HERE = os.path.dirname(os.path.realpath(__file__))
TOP = os.path.dirname(HERE)
LETTER = r"[\w'◌-]"
TOKEN = re.compile(LETTER + "+")


def table():
    with open(os.path.join(HERE, "respell.txt"), encoding="utf-8") as f:
        return dict(line.split() for line in f)


def respelled(text, names):
    return TOKEN.sub(lambda m: names.get(m.group(0), m.group(0)), text)


def in_source(text, names):
    """Of a name that is plain snake case already, src/ may have a function of its own."""
    return respelled(text, {old: new for old, new in names.items() if re.search("[a-z0-9][A-Z]|-", old)})


def in_edit(text, names):
    """In an edit a projection is written tight too, where no argument stands before it."""
    text = re.sub(r"\(([\w']+) \.([a-z][\w]*)\)", r"\1.\2", in_source(text, names))
    text = re.sub(r"(?<=[(≡,=] )([\w']+) \.(?=[a-z]\w* ?[\w;]*$)", r"\1.", text, flags=re.M)
    return re.sub(r"Rattle·(\w+)·specs\.specs\.|Rattle·(\w+)\.specs\.", lambda m: "Rattle." + (m.group(1) or m.group(2)) + ".specs.", text)


def in_page(text, names):
    return re.sub(r"`[^`\n]+`", lambda m: in_source(m.group(0), names), text)


def paths():
    for folder, folders, files in os.walk(os.path.join(TOP, "crates")):
        folders[:] = sorted(f for f in folders if f != "out")
        for name in sorted(files):
            yield os.path.join(folder, name)
    yield os.path.join(TOP, "README.md")
    for name in sorted(os.listdir(os.path.join(TOP, "docs"))):
        yield os.path.join(TOP, "docs", name)


def main():
    if len(sys.argv) > 1:
        print(__doc__)
        sys.exit(0 if sys.argv[1:] in (["-h"], ["--help"]) else 2)
    # A second time would give definitions the names of lemmas.
    if os.path.exists(os.path.join(TOP, "docs", "PORT.md")):
        sys.exit("respell: this tree has been turned already (docs/PORT.md)")
    names = table()
    for path in paths():
        turn = {".antt": respelled, ".rt": in_source, ".edit": in_edit, ".md": in_page}.get(os.path.splitext(path)[1])
        if turn is None:
            continue
        with open(path, encoding="utf-8") as f:
            old = f.read()
        new = turn(old, names)
        if new != old:
            with open(path, "w", encoding="utf-8") as f:
                f.write(new)


if __name__ == "__main__":
    main()
