"""Where message numbers stand on a line of a given width, and which of them are labelled."""

import math
from typing import NamedTuple

CELLS = 64  # up to so many numbers each has a cell of its own
WIDEST = 36
NARROWEST = 6  # a stretch that would be narrower than this makes the line a shortened one
LEAST = 3  # on which no stretch is narrower than this, where there is room
ROWS = 3
GAP = 8


class Label(NamedTuple):
    text: str
    x: float  # where its number stands
    left: float
    right: float
    row: int


class Axis:
    """Numbers 1 to `top`, in stretches that end at `ends`. Number n lies between the places n - 1 and n."""

    def __init__(self, ends, left, width):
        self.ends = [0, *ends]
        self.top = ends[-1]
        self.left = left
        lengths = [last - before for before, last in zip(self.ends, ends)]
        self.cells = self.top <= CELLS
        scale = min(WIDEST, width / self.top) if self.cells else width / self.top
        self.to_scale = self.cells or min(lengths) * scale >= NARROWEST
        if self.to_scale:
            self.widths = [length * scale for length in lengths]
        else:
            least = min(LEAST, width / len(lengths))
            weights = [1 + math.log10(length) for length in lengths]
            each = (width - least * len(lengths)) / sum(weights)
            self.widths = [least + weight * each for weight in weights]
        self.places = {0: left}
        for last, before, wide in zip(ends, self.ends, self.widths):
            self.places[last] = self.places[before] + wide
        self.right = self.places[self.top]

    def x(self, place):
        return self.places.get(place, self.left + place * (self.right - self.left) / self.top)

    def of_number(self, number):
        """Where a number's label belongs: in the middle of its cell, else where its stretch begins or ends."""
        if self.cells or {number - 1, number} <= self.places.keys():
            return (self.x(number - 1) + self.x(number)) / 2
        return self.x(number - 1 if number - 1 in self.places else number)

    def shortened(self):
        """The middles of the stretches that are drawn much shorter than others."""
        if self.to_scale:
            return []
        stretches = [(wide / (last - before), before, last, wide) for before, last, wide in zip(self.ends, self.ends[1:], self.widths)]
        widest = max(stretches)[0]
        return [(self.x(before) + self.x(last)) / 2 for each, before, last, wide in stretches if each * 4 < widest and wide > 20]


def text_width(text, size):
    """About as wide as the text is drawn in a wide sans-serif font."""
    return size * sum(0.33 if letter in ",.;:| il()/" else 0.64 for letter in text)


def clash(new, old):
    """Whether labels overlap, or the line down to the lower one crosses the upper one."""
    if new.row == old.row:
        return new.left < old.right + GAP and old.left < new.right + GAP
    upper, lower = (new, old) if new.row < old.row else (old, new)
    return upper.left - 2 < lower.x < upper.right + 2


def labels(axis, numbers, size, leftmost, rightmost):
    """A label for each number in turn, in the first row where there is room, or none. Cells have one row of labels."""
    placed = []
    for number in dict.fromkeys(numbers):
        text = f"{number:,}"
        wide, x = text_width(text, size), axis.of_number(number)
        left = min(max(x - wide / 2, leftmost), rightmost - wide)
        tried = (Label(text, x, left, left + wide, row) for row in range(1 if axis.cells else ROWS))
        placed += [label for label in tried if not any(clash(label, old) for old in placed)][:1]
    return placed


def steps(axis, size):
    """The numbers that are labelled where each has a cell: every one, or every 2nd, 5th or 10th."""
    cell = axis.widths[0] / (axis.ends[1] - axis.ends[0])
    wide = text_width(f"{axis.top:,}", size) + GAP
    step = next(step for step in (1, 2, 5, 10, 20) if cell * step >= wide)
    return [*range(step, axis.top + 1, step), 1]
