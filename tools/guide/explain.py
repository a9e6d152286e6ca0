"""Says in words what a number means, or what a statement refuses: see docs/REFUSALS.md."""

import re
import sys

import refusals
from programs import put

USAGE = "usage: ./explain NUMBER, or ./statement <SHEET | ./explain"
REFUSED = re.compile(r"(R|X),(\d+),(\d+)")
GRANTED = re.compile(r"S(,\d+){7}|T(,\d+){4}")


def fail(message):
    print(f"explain: {message}", file=sys.stderr)
    sys.exit(2)


def of_number(word):
    known = refusals.questions()
    if not re.fullmatch(r"[1-9]\d{0,2}", word):
        fail(USAGE)
    if int(word) not in known:
        fail(f"there is no question {word}; they go from {min(known)} to {max(known)}")
    return known[int(word)].text


def sentence(letter, number, place):
    """An R line has the entry, from 0; an X line the line of the sheet, from 1."""
    where = f"line {int(place) + 1} of the sheet (entry {place})" if letter == "R" else f"line {place} of the sheet"
    return f"{letter},{number},{place}: {where} is refused by {refusals.words(number)}"


def of_statement(lines):
    said = []
    for place, line in enumerate(lines, 1):
        refused = REFUSED.fullmatch(line)
        if refused:
            said.append(sentence(*refused.groups()))
        elif not GRANTED.fullmatch(line):
            fail(f"line {place} of the input is no line that statement prints\n{USAGE}")
    if not lines:
        fail(f"the input is empty\n{USAGE}")
    return "\n".join(said) or "Nothing is refused."


def main(words):
    if len(words) > 1:
        fail(USAGE)
    put(of_number(words[0]) if words else of_statement(sys.stdin.read().splitlines()))


if __name__ == "__main__":
    main(sys.argv[1:])
