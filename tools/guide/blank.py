"""Prints the sheet on standard input with 0 for every veiled byte: each row by `veil` of `replay`."""

import sys

import refusals
from programs import put, replay

USAGE = "usage: ./blank <SHEET >COPY"
KINDS = {b"D": 0, b"C": 1, b"Q": 2, b"K": 3}
FIELDS = {b"D": 3, b"C": 4, b"Q": 5, b"K": 4}


def fail(line, why):
    print(f"blank: line {line} of the sheet {why}", file=sys.stderr)
    sys.exit(1)


def lines_of(sheet):
    """Each line of the sheet as its fields. Whether their contents are right is asked by the programs."""
    *lines, rest = sheet.split(b"\n")
    parted = [line.split(b",") for line in lines]
    for place, fields in enumerate(parted, 1):
        if len(fields) != FIELDS.get(fields[0]):
            fail(place, f"is refused by {refusals.words(41)}")
    if rest:
        fail(len(lines) + 1, f"is refused by {refusals.words(41)}")
    return parted


def veiling(fields):
    *_, version, blob = fields
    return b"veil %d %s %d %s" % (KINDS[fields[0]], version, len(blob) // 2, blob or b"-")


def blanked(place, fields, answer):
    match answer.split():
        case ["=", "no", number]:
            fail(place, f"is refused by {refusals.words(number)}")
        case ["=", "?", _]:
            fail(place, "is no line of a sheet. ./statement <SHEET | ./explain says why.")
    return b",".join([*fields[:-1], answer.removeprefix("= ").encode()])


def main(words):
    if words:
        print(USAGE, file=sys.stderr)
        sys.exit(2)
    lines = lines_of(sys.stdin.buffer.read())
    answers = replay(map(veiling, lines)) if lines else []
    copy = [blanked(place, *line) for place, line in enumerate(zip(lines, answers), 1)]
    if copy:
        put(b"\n".join(copy))


if __name__ == "__main__":
    main(sys.argv[1:])
