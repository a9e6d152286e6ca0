"""Runs the examples of the documents, draws the pictures in docs/ anew, and holds docs/REFUSALS.md to the programs. Prints only what differs.

An example is a line of a code block that begins with `$ `: a command, run from the root of the repository. The lines
up to the next one, or to the end of the block, are all that it prints on standard output. A command that ends with a
backslash goes on in the next line.
"""

import difflib
import re
import subprocess
import sys
from typing import NamedTuple

import refusals
from blank import KINDS
from programs import ROOT, replay

PAGES = ["README.md", "docs/GUIDE.md", "docs/REFUSALS.md"]


class Example(NamedTuple):
    line: int
    command: str
    printed: list


def code(page):
    """The lines of a page's code blocks, fenced or indented by four spaces, with their numbers; None between blocks."""
    fenced = False
    for number, line in enumerate(page.splitlines(), 1):
        if line.startswith("```"):
            fenced = not fenced
            yield number, None
        elif fenced:
            yield number, line
        elif line.startswith("    ") or not line:
            yield number, line[4:]
        else:
            yield number, None


def examples(page):
    found, last = [], None
    for number, line in code(page):
        if line is None:
            last = None
        elif last and not last.printed and last.command.endswith("\\"):
            last = found[-1] = Example(last.line, f"{last.command}\n{line}", [])
        elif line.startswith("$ "):
            last = Example(number, line[2:], [])
            found.append(last)
        elif last:
            last.printed.append(line)
    for example in found:
        while example.printed and not example.printed[-1]:
            example.printed.pop()
    return found


def difference(due, got):
    """What differs, or nothing."""
    return "\n".join(difflib.unified_diff(due, got, "due", "printed", lineterm="", n=1))


def run(command):
    done = subprocess.run(["bash", "-c", command], cwd=ROOT, stdin=subprocess.DEVNULL, capture_output=True)
    return done.stdout.decode(errors="replace"), done.stderr.decode(errors="replace")


def wrong_examples(name):
    for example in examples((ROOT / name).read_text()):
        printed, said = run(example.command)
        due = "".join(line + "\n" for line in example.printed)
        if printed != due:
            differs = difference(due.splitlines(), printed.splitlines()) or "the last line has no end"
            yield f"{name}, line {example.line}: {example.command}\n{differs}\n{said}".rstrip()


def numbers_not_shown():
    """Every question that has a section has an example there that is refused with its number."""
    for head, lines in refusals.sections(refusals.PAGE.read_text()):
        refusal = re.compile(rf"[RX],{head.group(1)},\d+|= no {head.group(1)}( \d+)?")
        printed = [line for example in examples("\n".join(lines)) for line in example.printed]
        if not any(map(refusal.fullmatch, printed)):
            yield f"docs/REFUSALS.md: no example under {head.group(1)} {head.group(2)} is refused with this number"


def refused_row(example):
    """The kind, version and digits of the row that an example's sheet is refused for, or nothing."""
    sheet, _ = run(example.command.removesuffix("| ./statement"))
    refusal = re.fullmatch(r"R,\d+,(\d+)", "".join(example.printed[-1:]))
    lines = sheet.splitlines()
    if not refusal or not lines:
        return None
    letter, *_, version, blob = lines[int(refusal.group(1))].split(",")
    return KINDS[letter.encode()], version, blob or "-"


def wrong_answerers():
    """Where a sheet is refused for a row, reader and veil refuse that row alone with the same number exactly if the page says so."""
    for head, lines in refusals.sections(refusals.PAGE.read_text()):
        row = next(filter(None, map(refused_row, examples("\n".join(lines)))), None)
        if row is None:
            continue
        kind, version, blob = row
        lists = "8,500,9,9,9" if kind == 1 else "-"
        answers = replay([f"read {kind} {version} {lists} {blob}".encode(), f"veil {kind} {version} 61440 {blob}".encode()])
        for word, answer in zip(("reader", "veil"), answers):
            if (word in refusals.label(lines, "Answered by")) != (answer == f"= no {head.group(1)}"):
                yield f"docs/REFUSALS.md, {head.group(1)} {head.group(2)}: {word} answers {answer[:20]} of the smallest input's row"


def wrong_pictures():
    pictures = sorted((ROOT / "docs").glob("picture-*.svg"))
    if not pictures:
        yield "there is no docs/picture-NAME.svg"
    for picture in pictures:
        sample = f"samples/{picture.stem.removeprefix('picture-')}.sheet"
        printed, said = run(f"./picture <{sample}")
        if printed != picture.read_text():
            yield f"docs/{picture.name} is not what ./picture <{sample} draws\n{said}".rstrip()


def main():
    wrong = [*numbers_not_shown(), *wrong_answerers(), *wrong_pictures()]
    for page in PAGES:
        wrong += wrong_examples(page)
    for message in wrong:
        print(f"tools/examples: {message}", file=sys.stderr)
    sys.exit(1 if wrong else 0)


if __name__ == "__main__":
    main()
