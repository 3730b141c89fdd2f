"""Points, lines and areas as three data files, a row a shape; what can't be taken is counted and named."""
from __future__ import annotations

import heapq
import os
from typing import Iterable, NamedTuple, Optional, Sequence

from fields import MOST_ROWS, Cleaner, is_whole, loading
from frame import Frame
from tool import Complaint, output, say
from z_order import Records, Spot

MOST_CORNERS = 64
# a latitude and a longitude
Place = tuple[float, float]


class Left(NamedTuple):
    """Why shapes were left out, how many, and which was the first."""
    many: int
    first: str


class Layer:
    """The rows of one data file: a shape, and the same columns for each."""

    def __init__(self, name: str, shape: str, kind: str, columns: Sequence[str], in_order: bool) -> None:
        self.name, self.shape, self.kind, self.columns = name, shape, kind, list(columns)
        self.rows = 0
        self._whole = [True] * len(self.columns)
        self._records = Records([shape, *self.columns], in_order)

    def add(self, spots: Sequence[Spot], literal: str, values: Sequence[str]) -> None:
        self.rows += 1
        self._records.add(spots, [literal, *values])
        whole = self._whole
        for at, value in enumerate(values):
            if whole[at] and not is_whole(value):
                whole[at] = False

    def save(self, folder: str) -> str:
        """Writes the file; the statements that load it."""
        file = os.path.join(folder, f"{self.name}.csv")
        with output(file) as it:
            it.write(self._records.text())
        kinds = [(self.shape, self.kind), *zip(self.columns, ("int" if it else "text" for it in self._whole))]
        return loading(self.name, kinds, file, self.shape)


class Layers:
    """The three layers of a frame, and what was left out of them."""

    def __init__(self, frame: Frame, names: tuple[str, str, str], columns: Sequence[str], thin: bool, fill: bool, in_order: bool) -> None:
        self._grid = frame.grid()
        self.points = Layer(names[0], "at", "point", columns, in_order)
        self.lines = Layer(names[1], "way", "segment", columns, in_order)
        self.areas = Layer(names[2], "region", "polygon", columns, in_order)
        self._thin, self._fill = thin, fill
        self.clean = Cleaner()
        self.left: dict[str, Left] = {}
        self.thinned = 0

    def leave(self, why: str, what: object) -> None:
        known = self.left.get(why) or Left(0, str(what))
        self.left[why] = Left(known.many + 1, known.first)

    def point(self, place: Place, values: Sequence[str], what: object) -> None:
        spot = self._grid(*place)
        if spot is None:
            self.leave("points outside of the frame", what)
        else:
            self.points.add([spot], literal(spot), values)

    def line(self, places: Iterable[Place], values: Sequence[str], what: object) -> None:
        """A row for each piece of a line that lies in the frame."""
        spots = [self._grid(*place) for place in places]
        pieces = [(one, two) for one, two in zip(spots, spots[1:]) if one and two]
        if not pieces:
            self.leave("lines outside of the frame", what)
        elif len(pieces) < len(spots) - 1:
            self.leave("lines that leave the frame, with pieces", what)
        long = [(one, two) for one, two in pieces if one != two] or pieces[:1]
        for one, two in long:
            self.lines.add([one, two], f"{literal(one)}-{literal(two)}", values)

    def area(self, rings: Sequence[Iterable[Place]], values: Sequence[str], what: object) -> None:
        """A row for a ring, the first; the others are its holes."""
        if len(rings) > 1 and not self._fill:
            return self.leave("areas with holes (--fill takes them without)", what)
        corners = ring(self._grid(*place) for place in rings[0])
        if corners is None:
            return self.leave("areas that aren't wholly in the frame", what)
        if len(corners) > MOST_CORNERS and not self._thin:
            return self.leave(f"areas of more than {MOST_CORNERS} corners (--thin takes away the flattest)", what)
        if len(corners) > MOST_CORNERS:
            corners = thinned(corners, MOST_CORNERS)
            self.thinned += 1
        if len(corners) < 3:
            return self.leave("areas that are smaller than a step", what)
        self.areas.add(corners, f"({' '.join(map(literal, corners))})", values)

    def save(self, name: str, folder: str) -> None:
        """Writes the files that have a row, prints the statements that load them, and says what was left out."""
        try:
            os.makedirs(folder, exist_ok=True)
        except OSError as error:
            raise Complaint(f"{folder}: {(error.strerror or str(error)).lower()}") from None
        layers = [layer for layer in (self.points, self.lines, self.areas) if layer.rows]
        print("".join(layer.save(folder) for layer in layers), end="", flush=True)
        say(f"{name}: " + (", ".join(f"{layer.rows:,} {layer.name}" for layer in layers) or "nothing taken"))
        if self.thinned:
            say(f"{name}: thinned to {MOST_CORNERS} corners: {self.thinned:,} areas")
        if self.clean.cut:
            say(f"{name}: cut at 255 bytes: {self.clean.cut:,} texts")
        for why, left in self.left.items():
            say(f"{name}: left out: {left.many:,} {why}, the first {left.first}")
        for layer in layers:
            if layer.rows > MOST_ROWS:
                say(f"{name}: {layer.name}: a relation takes {MOST_ROWS:,} rows")


def literal(spot: Spot) -> str:
    return f"({spot[0]} {spot[1]})"


def ring(spots: Iterable[Optional[Spot]]) -> Optional[list[Spot]]:
    """The corners of a ring without those that repeat the one before; None where one lies outside of the frame."""
    corners: list[Spot] = []
    for spot in spots:
        if spot is None:
            return None
        if not corners or spot != corners[-1]:
            corners.append(spot)
    while len(corners) > 1 and corners[0] == corners[-1]:
        corners.pop()
    return corners


def thinned(corners: list[Spot], most: int) -> list[Spot]:
    """So many corners of a ring: the one whose triangle with its neighbours is least goes first, after M. Visvalingam."""
    count = len(corners)
    before, behind = [(at - 1) % count for at in range(count)], [(at + 1) % count for at in range(count)]
    stands = [True] * count

    def area(at: int) -> int:
        (ax, ay), (bx, by), (cx, cy) = corners[before[at]], corners[at], corners[behind[at]]
        return abs((bx - ax) * (cy - ay) - (cx - ax) * (by - ay))
    queue = [(area(at), at) for at in range(count)]
    heapq.heapify(queue)
    while count > most:
        size, at = heapq.heappop(queue)
        if not stands[at] or size != area(at):
            continue
        stands[at], count = False, count - 1
        one, two = before[at], behind[at]
        behind[one], before[two] = two, one
        heapq.heappush(queue, (area(one), one))
        heapq.heappush(queue, (area(two), two))
    return [corner for corner, stays in zip(corners, stands) if stays]
