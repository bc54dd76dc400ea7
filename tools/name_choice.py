#!/usr/bin/env python3
"""Gives base's choice of two values a name of its own, `if b then x otherwise y`: today's gate keeps `if b then x else y` for std's.

usage: name_choice.py [TOP]

It turns specs/, proofs/, clauses and ghost uses of src/, and the texts of edits. A second run turns nothing more.
"""
import os
import re
import sys

TOP = os.path.abspath(sys.argv[1] if len(sys.argv) > 1 else ".")
OLD, NEW = "if◌then◌else◌", "if◌then◌otherwise◌"


def antt(line):
    return line if line.lstrip().startswith("--") else re.sub(r"(?<![\w'-])else(?![\w'-])", "otherwise", line.replace(OLD, NEW))


def rattle(line):
    """A line of a .rt file: in code an else stands behind a brace or alone before one."""
    if line.lstrip().startswith("//"):
        return line
    line = line.replace(OLD, NEW)
    return line if re.match(r"\s*else \{", line) else re.sub(r"(?<!\} )\belse\b(?! \{)", "otherwise", line)


def edit(text):
    of, out = "", []
    for line in text.splitlines(keepends=True):
        if line.startswith("file: "):
            of = line
        elif line.startswith(("old:", "new:")):
            line = antt(line) if ".antt" in of else rattle(line)
        out.append(line)
    return "".join(out)


def main():
    for folder, dirs, names in os.walk(os.path.join(TOP, "crates")):
        dirs[:] = [d for d in dirs if d != "out"]
        for name in names:
            if not name.endswith((".antt", ".rt", ".edit", ".twin")):
                continue
            path = os.path.join(folder, name)
            with open(path, encoding="utf-8") as f:
                was = f.read()
            if name.endswith((".edit", ".twin")):
                text = edit(was)
            else:
                text = "".join(map(antt if name.endswith(".antt") else rattle, was.splitlines(keepends=True)))
            if text != was:
                with open(path, "w", encoding="utf-8") as f:
                    f.write(text)


main()
