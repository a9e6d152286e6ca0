"""Says whether a message number of a contact, or all from one to another, is covered: by `replay` alone."""

import re
import sys

import refusals
from programs import put, replay, restoring

USAGE = "usage: ./covered CONTACT NUMBER <SHEET, or ./covered CONTACT FROM TO <SHEET"
CONTACTS = 2**64 - 1
NUMBERS = 2**32 - 1


def decimal(word, highest):
    if not re.fullmatch(r"0|[1-9][0-9]*", word) or int(word) > highest:
        print(f"covered: {word} is no decimal from 0 to {highest:,}\n{USAGE}", file=sys.stderr)
        sys.exit(2)
    return int(word)


def unread(line):
    """`= ? LINE`: a line of the script; its first is the restore, which is none where a sheet has more than 512."""
    if line == 1:
        return f"No answer: line 513 of the sheet is refused by {refusals.words(44)}"
    return f"No answer: line {line - 1} is no line of a sheet. ./statement <SHEET | ./explain says why."


def refusal(answer):
    """The sentence for an answer that is a refusal, or nothing."""
    match answer.split():
        case ["=", "?", line]:
            return unread(int(line))
        case ["=", "no", number, entry]:
            return f"No answer: line {int(entry) + 1} of the sheet (entry {entry}) is refused by {refusals.words(number)}"
        case ["=", "no", number]:
            return f"No answer: refused by {refusals.words(number)}"
    return None


def wording(yes, contact, numbers):
    if len(numbers) == 2:
        first, last = (f"{number:,}" for number in numbers)
        return f"Yes: all messages from {first} to {last} of contact {contact} are covered." if yes else \
            f"No: not all messages from {first} to {last} of contact {contact} are covered."
    if numbers == [0]:
        return "No: message numbers begin at 1, and 0 is never covered."
    return f"{'Yes' if yes else 'No'}: message {numbers[0]:,} of contact {contact} is {'' if yes else 'not '}covered."


def main(words):
    if len(words) not in (2, 3):
        print(USAGE, file=sys.stderr)
        sys.exit(2)
    contact, *numbers = [decimal(words[0], CONTACTS), *(decimal(word, NUMBERS) for word in words[1:])]
    call = "contains %d" if len(numbers) == 1 else "covers %d %d"
    answers = replay(restoring(sys.stdin.buffer.read()) + [b"open %d" % contact, (call % tuple(numbers)).encode()])
    refused = next(filter(None, map(refusal, answers)), None)
    put(refused or wording(answers[-1] == "= true", contact, numbers))
    sys.exit(1 if refused else 0)


if __name__ == "__main__":
    main(sys.argv[1:])
