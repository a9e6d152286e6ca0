#!/usr/bin/env python3
"""Lists definitions that a clause of crates/*/src cannot mean by their bare names, since the code has a constant of the name there. Exit status 1 if there are any.

A bare name in a clause is the code's constant, also where `ghost use` brings a definition of that name. Such a clause has to say `module.NAME`.
"""
import pathlib
import re
import sys

NAME = re.compile(r"[A-Z][A-Z0-9_]*")
GHOST = re.compile(r"ghost use \S+?\.\{([^}]*)\};")
DECLARED = re.compile(r"\b(?:const|static) ([A-Z][A-Z0-9_]*)\s*:")
IMPORTED = re.compile(r"^(?:pub )?use ([\w:]+?)(?:::\{([^}]*)\})?;", re.MULTILINE)


def names(text: str) -> set[str]:
    """The constants' names in a list of imports, each as it is called here."""
    called = {name.split(" as ")[-1].strip() for name in text.split(",")}
    return {name for name in called if NAME.fullmatch(name)}


def hidden(text: str) -> set[str]:
    of_definitions = set().union(*(names(found) for found in GHOST.findall(text)), set())
    of_code = set(DECLARED.findall(text))
    for path, several in IMPORTED.findall(text):
        of_code |= names(several or path.split("::")[-1])
    return of_definitions & of_code


def main() -> int:
    bad = 0
    for path in sorted(pathlib.Path("crates").glob("*/src/**/*.rt")):
        for name in sorted(hidden(path.read_text(encoding="utf-8"))):
            print(f"{path}: {name} is a constant here, and not the definition of that name")
            bad = 1
    return bad


sys.exit(main())
