"""Which numbers above contiguous are covered, found by asking `replay` and by nothing else.

`cover` answers how many numbers of a range were not covered before, and `open` drops what it did. So a range from
contiguous + 1 on says how many of its numbers are covered. A piece that is covered in part is cut into four, round
after round, until each is covered wholly or not at all. Where that would be too many pieces to be drawn apart, those of
the round before stay.
"""

from typing import NamedTuple

from programs import replay, restoring

HIGHEST = 2**32 - 1
CUTS = 4
MOST = 240  # pieces of a contact that are covered in part


class Piece(NamedTuple):
    first: int
    last: int
    covered: int  # how many of its numbers

    def length(self):
        return self.last - self.first + 1

    def in_part(self):
        return 0 < self.covered < self.length()


def cut(piece):
    """The last numbers of the pieces that a piece is cut into, but for its own."""
    width = -(-piece.length() // CUTS)
    return range(piece.first + width - 1, piece.last, width)


def covered_up_to(sheet, asked):
    """How many numbers above contiguous are covered, up to the last one, for each (contact, contiguous, last)."""
    calls = [(b"open %d" % contact, b"cover %d %d" % (contiguous + 1, last)) for contact, contiguous, last in asked]
    answers = replay(restoring(sheet) + [line for pair in calls for line in pair])
    new = [int(answer.split()[2]) for answer in answers[2::2]]
    return [last - contiguous - count for (_, contiguous, last), count in zip(asked, new)]


def refined(pieces, counts):
    """The pieces with those in part cut; `counts` has, by last number, how many are covered up to there."""
    result, before = [], 0
    for piece in pieces:
        first, start = piece.first, before
        for last in cut(piece) if piece.in_part() else ():
            result.append(Piece(first, last, counts[last] - start))
            first, start = last + 1, counts[last]
        before += piece.covered
        result.append(Piece(first, piece.last, before - start))
    return result


def joined(pieces):
    """Neighbours that are both covered, or both not, are one piece."""
    result = []
    for piece in pieces:
        if result and not piece.in_part() and not result[-1].in_part() and (piece.covered > 0) == (result[-1].covered > 0):
            piece = Piece(result[-1].first, piece.last, result.pop().covered + piece.covered)
        result.append(piece)
    return result


def beyond(sheet, contacts):
    """For each contact, by id to contiguous and how many beyond, the pieces above contiguous up to the highest number."""
    found = {contact: [Piece(contiguous + 1, HIGHEST, count)] for contact, (contiguous, count) in contacts.items()}
    going = {contact for contact, (_, count) in contacts.items() if count}
    while True:
        asked = [(contact, contacts[contact][0], last) for contact in sorted(going)
                 for piece in found[contact] if piece.in_part() for last in cut(piece)]
        if not asked:
            return found
        counts = {contact: {} for contact in going}
        for (contact, _, last), count in zip(asked, covered_up_to(sheet, asked)):
            counts[contact][last] = count
        for contact in sorted(going):
            pieces = joined(refined(found[contact], counts[contact]))
            if sum(piece.in_part() for piece in pieces) > MOST:
                going.remove(contact)
            else:
                found[contact] = pieces
