"""docs/REFUSALS.md, question by question: what `explain` prints, and the words for a refusal."""

import re
from typing import NamedTuple

from programs import ROOT

PAGE = ROOT / "docs/REFUSALS.md"
HEAD = re.compile(r"^### (\d+) ([A-Z0-9_]+)$")
LATER = re.compile(r"^- (\d+) ([A-Z0-9_]+): (.*)$")


class Question(NamedTuple):
    name: str
    refused: str  # what is wrong, as the end of a sentence
    text: str  # all that the page says of it


def sections(page):
    """Each head of the page that names a question, with the lines under it."""
    found, lines = [], None
    for line in page.splitlines():
        head = HEAD.match(line)
        if head:
            lines = []
            found.append((head, lines))
        elif line.startswith("#"):
            lines = None
        elif lines is not None:
            lines.append(line)
    return found


def label(lines, word):
    """What stands behind a label such as `- Refused: `, up to the end of its item."""
    body = "\n".join(lines)
    item = re.search(rf"^- {word}: (.*(?:\n  .*)*)", body, re.MULTILINE)
    return " ".join(item.group(1).split()) if item else ""


def plain(lines):
    """The lines with code indented, and without the fences around it."""
    fenced = False
    for line in lines:
        if line == "```":
            fenced = not fenced
        else:
            yield "    " + line if fenced else line


def questions():
    """Every question of the page by its number: those that are asked have a section, the others an item in a list."""
    page = PAGE.read_text()
    known = {}
    for head, lines in sections(page):
        text = "\n".join([head.group(0).removeprefix("### "), *plain(lines)]).rstrip()
        known[int(head.group(1))] = Question(head.group(2), label(lines, "Refused"), text)
    for item in filter(None, map(LATER.match, page.splitlines())):
        text = f"{item.group(1)} {item.group(2)}\n\n{item.group(3)}\n\nNothing asks this yet."
        known[int(item.group(1))] = Question(item.group(2), item.group(3), text)
    return known


def words(number):
    """What is wrong where this question is a no."""
    known = questions().get(int(number))
    return f"question {number}: {known.refused}" if known else f"question {number}, of which docs/REFUSALS.md says nothing"
