"""The records of a data file as they come, or in Z-order of their places (after G. M. Morton), which has neighbours together."""
from __future__ import annotations

import csv
import io
from typing import Sequence

Spot = tuple[int, int]
# each number of ten bits with its bits set apart, the lowest at place 0, the next at 2
APART = [sum((bits >> at & 1) << 2 * at for at in range(10)) for bits in range(1 << 10)]


def z_code(spot: Spot) -> int:
    """The code of a point of the grid, as the program has it: the bits of x at the even places, those of y at the odd ones."""
    x, y = spot
    return APART[x & 1023] | APART[x >> 10] << 20 | (APART[y & 1023] | APART[y >> 10] << 20) << 1


def middle(spots: Sequence[Spot]) -> Spot:
    """The middle of the box round a shape."""
    xs, ys = zip(*spots)
    return (min(xs) + max(xs)) // 2, (min(ys) + max(ys)) // 2


class Records:
    """A header, and a record for each row. In order means by the code of the middle of its shape; at one code, as they came."""

    def __init__(self, header: Sequence[str], in_order: bool) -> None:
        self._in_order = in_order
        self._codes: list[int] = []
        self._begins: list[int] = []
        self._text = io.StringIO()
        self._write = csv.writer(self._text, lineterminator="\n").writerow
        self._write(header)

    def add(self, spots: Sequence[Spot], fields: Sequence[str]) -> None:
        if self._in_order:
            self._codes.append(z_code(middle(spots)))
            self._begins.append(self._text.tell())
        self._write(fields)

    def text(self) -> str:
        whole = self._text.getvalue()
        bounds = [*self._begins, len(whole)]
        order = sorted(range(len(self._codes)), key=self._codes.__getitem__)
        return "".join([whole[:bounds[0]], *(whole[bounds[at]:bounds[at + 1]] for at in order)])
