#!/usr/bin/env python3
"""Says which files of definitions have another number of lines than docs/ARCHITECTURE.md tells. Exit status: 0 none, 1 some.

A number stands in a table, `crate/specs/File.antt`, `Other.antt` | LINES, together; or in a sentence, `crate/specs/File.antt` (LINES,
or with a comma in place of the bracket.
"""
import os
import re
import sys

ROOT = os.path.join(os.path.dirname(os.path.abspath(__file__)), "..")
TABLE = re.compile(r"^\| (`[^|]*`) \| ([0-9]+) \|", re.MULTILINE)
SENTENCE = re.compile(r"(`[a-z0-9_]+/specs/[A-Za-z0-9]+\.antt`)(?: \(|, )([0-9]+)\b")


def lines_of(names):
    """The lines of all files; one without a folder stands beside the one before it."""
    folder, lines = "", 0
    for name in re.findall(r"`([^`]+)`", names):
        folder = os.path.dirname(name) or folder
        path = os.path.join(ROOT, "crates", folder, os.path.basename(name))
        with open(path, encoding="utf-8") as file:
            lines += len(file.readlines())
    return lines


def main():
    with open(os.path.join(ROOT, "docs", "ARCHITECTURE.md"), encoding="utf-8") as file:
        text = file.read()
    told = TABLE.findall(text) + SENTENCE.findall(text)
    wrong = [(names, lines, lines_of(names)) for names, lines in told if int(lines) != lines_of(names)]
    for names, lines, has in wrong:
        print(f"docs/ARCHITECTURE.md: {names} have {has} lines, and {lines} are told")
    if not told:
        print("docs/ARCHITECTURE.md tells no numbers of lines")
    return 1 if wrong or not told else 0


sys.exit(main())
