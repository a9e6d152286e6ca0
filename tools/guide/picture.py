"""Draws which message numbers of each contact are covered, sent and acknowledged, from what the proved programs print."""

import sys
import textwrap
from typing import NamedTuple
from xml.sax.saxutils import escape

import explain
import ranges
from axis import Axis, labels, steps, text_width
from programs import put, run

USAGE = "usage: ./picture <SHEET >FILE.svg"
WIDTH, MARGIN, BARS, BAR = 960, 24, 100, 16
RIGHT = WIDTH - MARGIN
INK, GREY, LINE, PAPER = "#1f2328", "#57606a", "#b9c2cb", "#ffffff"
FILLS = {
    "covered": "#1f6f54",
    "beyond": "#e08b00",
    "in part": "url(#part)",
    "acknowledged": "#1f5fa8",
    "sent": "#9cc3ee",
    "none": "#eef1f4",
}
LEGEND = [
    ("covered", "covered from 1 on"),
    ("beyond", "covered beyond a gap"),
    ("in part", "covered in part"),
    ("acknowledged", "sent, acknowledged"),
    ("sent", "sent, not acknowledged"),
    ("none", "none of these"),
]


class Contact(NamedTuple):
    """An S line."""

    id: int
    sent: int
    acked: int
    contiguous: int
    beyond: int
    queued: int
    expired: int


class Stretch(NamedTuple):
    first: int
    last: int
    kind: str


def text(x, y, words, size=12, fill=INK, more=""):
    return f'<text x="{x:.1f}" y="{y:.1f}" font-size="{size}" fill="{fill}"{more}>{escape(words)}</text>'


def rect(x, y, wide, high, fill, more=""):
    return f'<rect x="{x:.1f}" y="{y:.1f}" width="{wide:.1f}" height="{high:.1f}" fill="{fill}"{more}/>'


def line(x, y, to_x, to_y, stroke, wide=1):
    return f'<line x1="{x:.1f}" y1="{y:.1f}" x2="{to_x:.1f}" y2="{to_y:.1f}" stroke="{stroke}" stroke-width="{wide}"/>'


def count(number, one, many):
    return f"{number:,} {one if number == 1 else many}"


def lanes(contact, pieces):
    """What is drawn of a contact: the covered numbers, and the sent ones, up to the last of either."""
    covered = [Stretch(1, contact.contiguous, "covered")]
    for piece in pieces:
        kind = "in part" if piece.in_part() else "beyond" if piece.covered else "none"
        # where a range ends is not known beside a piece that is covered in part: together they are one
        if {kind, covered[-1].kind} in ({"in part"}, {"in part", "beyond"}):
            covered[-1] = Stretch(covered[-1].first, piece.last, "in part")
        else:
            covered.append(Stretch(piece.first, piece.last, kind))
    sent = [Stretch(1, contact.acked, "acknowledged"), Stretch(contact.acked + 1, contact.sent, "sent")]
    drawn = [[s for s in lane if s.kind != "none" and s.first <= s.last] for lane in (covered, sent)]
    return drawn, max((s.last for lane in drawn for s in lane), default=0)


def ranges_said(stretches):
    """The covered ranges in words, as many as a line holds."""
    said = [f"{s.first:,}" if s.first == s.last else f"{s.first:,} to {s.last:,}" for s in stretches if s.kind != "in part"]
    end = ["more ranges than can be drawn apart (hatched)"] if len(said) < len(stretches) else []
    shown = len(said)
    while text_width(", ".join(said[:shown] + end) + ", and 9,999 more ranges", 12) > RIGHT - BARS:
        shown -= 1
    rest = [f"and {count(len(said) - shown, 'more range', 'more ranges')}"] if shown < len(said) else []
    return ", ".join(said[:shown] + rest + end)


def figures(contact):
    covered = contact.contiguous + contact.beyond
    beyond = f", of these {contact.beyond:,} beyond" if contact.beyond else ""
    return (f"sent {contact.sent:,}, acknowledged up to {contact.acked:,}, covered {covered:,}{beyond}, "
            f"queued {contact.queued:,}, expired {contact.expired:,}")


def bar(axis, y, stretches):
    """One line of numbers: a frame, and what is covered or sent in it."""
    drawn = [rect(axis.left, y, axis.right - axis.left, BAR, FILLS["none"])]
    for s in stretches:
        drawn.append(rect(axis.x(s.first - 1), y, axis.x(s.last) - axis.x(s.first - 1), BAR, FILLS[s.kind]))
    if axis.cells:
        drawn += [line(axis.x(place), y, axis.x(place), y + BAR, PAPER) for place in range(1, axis.top)]
    for x in axis.shortened():
        drawn.append(f'<path d="M{x - 6:.1f} {y + BAR} l6 -{BAR} h5 l-6 {BAR} z" fill="{PAPER}" stroke="{LINE}"/>')
    drawn.append(rect(axis.left, y, axis.right - axis.left, BAR, "none", f' stroke="{LINE}"'))
    return drawn


def bars(contact, drawn, top, y):
    """Both lines of numbers with their labels, and the place below them."""
    ends = {top} | {place for lane in drawn for s in lane for place in (s.first - 1, s.last)} - {0}
    axis = Axis(sorted(ends), BARS, RIGHT - BARS)
    under = y + 2 * BAR + 6
    picture = [text(MARGIN, y + 13, "covered"), *bar(axis, y, drawn[0])]
    picture += [text(MARGIN, y + BAR + 19, "sent"), *bar(axis, y + BAR + 6, drawn[1])]
    keys = [1, contact.contiguous, contact.sent, contact.acked, top]
    edges = [number for lane in drawn for s in lane for number in (s.first, s.last)]
    numbers = steps(axis, 11) if axis.cells else [number for number in keys + edges if number]
    placed = labels(axis, numbers, 11, BARS - 30, RIGHT)
    for label in placed:
        low = under + 5 + 14 * label.row
        picture += [line(label.x, under, label.x, low, LINE), text(label.left, low + 10, label.text, 11, GREY)]
    if not axis.to_scale:
        marks = ", a slanted mark shortens a stretch" if axis.shortened() else ""
        picture.append(text(RIGHT, y - 31, "numbers not to scale" + marks, 11, GREY, ' text-anchor="end"'))
    return picture, under + 5 + 14 * max(label.row for label in placed) + 12


def band(contact, pieces, y):
    """A contact: its title, its figures, its numbers, and the covered ranges in words."""
    drawn, top = lanes(contact, pieces)
    picture = [line(MARGIN, y, RIGHT, y, LINE), text(MARGIN, y + 26, f"Contact {contact.id}", 15, INK, ' font-weight="bold"')]
    picture.append(text(MARGIN, y + 45, figures(contact)))
    if not top:
        return picture + [text(MARGIN, y + 66, "No number is sent or covered.", 12, GREY)], y + 84
    numbers, y = bars(contact, drawn, top, y + 57)
    picture += numbers
    if drawn[0]:
        picture.append(text(MARGIN, y + 15, "covered: " + ranges_said(drawn[0])))
        y += 19
    return picture, y + 14


def legend(kinds, y):
    picture, x = [], MARGIN
    for kind, words in LEGEND:
        if kind in kinds:
            picture += [rect(x, y - 10, 14, 12, FILLS[kind], f' stroke="{LINE}"'), text(x + 20, y, words)]
            x += text_width(words, 12) + 31
    return picture


def whole(drawn, high):
    """The file: a picture of this height, on its own paper."""
    return "\n".join([
        f'<svg xmlns="http://www.w3.org/2000/svg" width="{WIDTH}" height="{high:.0f}" viewBox="0 0 {WIDTH} {high:.0f}" '
        'font-family="DejaVu Sans, Verdana, Arial, sans-serif" role="img">',
        "<title>Message numbers of each contact</title>",
        '<defs><pattern id="part" width="6" height="6" patternUnits="userSpaceOnUse" patternTransform="rotate(45)">'
        f'<rect width="6" height="6" fill="{PAPER}"/><rect width="3" height="6" fill="{FILLS["beyond"]}"/></pattern></defs>',
        rect(0.5, 0.5, WIDTH - 1, high - 1, PAPER, f' stroke="{LINE}"'),
        *drawn,
        "</svg>",
    ])


def refused(said):
    """A sheet that has no statement: the refusal in words."""
    words = textwrap.wrap(explain.of_statement(said), 130)
    drawn = [text(MARGIN, 40, "No picture: the sheet is refused", 18, INK, ' font-weight="bold"')]
    drawn += [text(MARGIN, 68 + 18 * place, words) for place, words in enumerate(words)]
    return whole(drawn, 68 + 18 * len(words) + 10)


def granted(sheet, said):
    """The contacts of a statement, one below the other."""
    contacts = [Contact(*map(int, line.split(",")[1:])) for line in said[:-1]]
    found = ranges.beyond(sheet, {contact.id: (contact.contiguous, contact.beyond) for contact in contacts})
    total, queued, held, slot = map(int, said[-1].split(",")[1:])
    totals = [count(total, "contact", "contacts"), count(queued, "queued row", "queued rows"),
              count(held, "courier row held", "courier rows held"), f"next slot {slot:,}"]
    drawn = [text(MARGIN, 40, "Message numbers of each contact", 18, INK, ' font-weight="bold"'), text(MARGIN, 60, ", ".join(totals), 12, GREY)]
    kinds = {"covered", "beyond", "acknowledged", "sent", "none"}
    if any(piece.in_part() for pieces in found.values() for piece in pieces):
        kinds.add("in part")
    drawn += legend(kinds, 84)
    y = 102
    for contact in contacts:
        picture, y = band(contact, found[contact.id], y)
        drawn += picture
    return whole(drawn, y + 6)


def main(words):
    if words:
        print(USAGE, file=sys.stderr)
        sys.exit(2)
    sheet = sys.stdin.buffer.read()
    said = run("statement", sheet)
    put(granted(sheet, said) if said[-1].startswith("T") else refused(said))


if __name__ == "__main__":
    main(sys.argv[1:])
