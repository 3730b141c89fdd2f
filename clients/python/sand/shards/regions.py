"""The plane, parted among shards: quarters of it, and quarters of these, down to a size."""
from __future__ import annotations

from typing import Iterable, List, NamedTuple, Sequence, Tuple

from ..values import Point

# points of the grid each way
WIDTH = 1 << 20
# a quarter that has more than this share of a shard's rows is quartered again
SHARE = 8


class Box(NamedTuple):
    """A rectangle of the grid with its borders, low corner first."""
    left: int
    low: int
    right: int
    high: int

    @classmethod
    def round(cls, corners: Iterable[Tuple[int, int]]) -> Box:
        """The least rectangle round corners."""
        xs, ys = zip(*corners)
        return cls(min(xs), min(ys), max(xs), max(ys))

    def gap(self, other: Box) -> int:
        """The squared distance of two rectangles in steps of the grid, 0 where they meet."""
        left, low, right, high = self
        across = left - other[2] if left > other[2] else other[0] - right if other[0] > right else 0
        along = low - other[3] if low > other[3] else other[1] - high if other[1] > high else 0
        return across * across + along * along


class Regions(NamedTuple):
    """Which shard has which squares of the plane.

    The plane is a grid of cells, `1 << bits` steps each way; `homes` has a shard for each cell, row by row from below, and
    `boxes` the squares of each shard.
    """
    bits: int
    homes: List[int]
    boxes: List[List[Box]]

    def home(self, x: int, y: int) -> int:
        """The shard that has a point."""
        return self.homes[(y >> self.bits) * (WIDTH >> self.bits) + (x >> self.bits)]

    def all_homes(self, xs: Iterable[int], ys: Iterable[int]) -> List[int]:
        """The shards that have points."""
        homes, bits, across = self.homes, self.bits, WIDTH >> self.bits
        return [homes[(y >> bits) * across + (x >> bits)] for x, y in zip(xs, ys)]

    def gaps(self, box: Box) -> List[int | None]:
        """The least squared distances from a rectangle to where each shard's points lie; None where it has no square."""
        return [min([own.gap(box) for own in boxes]) if boxes else None for boxes in self.boxes]

    def near(self, box: Box, distance: int) -> list[int]:
        """The shards that have a square at most so many steps from a rectangle."""
        most = distance * distance
        return [shard for shard, boxes in enumerate(self.boxes) if any(own.gap(box) <= most for own in boxes)]


def quarters(count: int, points: Sequence[Point] = (), size: int = WIDTH // 64) -> Regions:
    """Parts the plane among so many shards.

    Where points are given, a sample of the rows to come, each shard gets about as many of them, else about as much of the
    plane. No square is smaller than `size` steps each way, a power of two.
    """
    if count < 1:
        raise ValueError("there is one shard at least")
    if not 0 < size <= WIDTH or size & (size - 1):
        raise ValueError(f"the size of a square is a power of two, up to {WIDTH}: {size}")
    squares = list(quartered(Box(0, 0, WIDTH - 1, WIDTH - 1), list(points), count, len(points), size))
    whole = sum(weight for _, weight in squares)
    behind = 0
    dealt: List[Tuple[Box, int]] = []
    for box, weight in squares:
        dealt.append((box, min(count - 1, (2 * behind + weight) * count // (2 * whole))))
        behind += weight
        join_last(dealt)
    return filled(size.bit_length() - 1, [[box for box, shard in dealt if shard == number] for number in range(count)])


def filled(bits: int, boxes: List[List[Box]]) -> Regions:
    """The regions of which each shard has the squares that are told."""
    homes = [0] * (WIDTH >> bits) ** 2
    for shard, some in enumerate(boxes):
        for box in some:
            across = (box.right - box.left + 1) >> bits
            for row in range(box.low >> bits, (box.high >> bits) + 1):
                start = row * (WIDTH >> bits) + (box.left >> bits)
                homes[start:start + across] = [shard] * across
    return Regions(bits, homes, boxes)


def join_last(dealt: List[Tuple[Box, int]]) -> None:
    """Joins the last four squares as often as they are the quarters of one, all of one shard."""
    while len(dealt) >= 4:
        (first, shard), (last, _) = dealt[-4], dealt[-1]
        side = first.right - first.left + 1
        is_square = last == Box(first.left + side, first.low + side, first.right + side, first.high + side)
        if not is_square or first.left % (2 * side) or first.low % (2 * side) or any(other != shard for _, other in dealt[-3:]):
            return
        dealt[-4:] = [(Box(first.left, first.low, last.right, last.high), shard)]


def quartered(box: Box, points: list[Point], count: int, whole: int, size: int) -> Iterable[tuple[Box, int]]:
    """The squares of a part of the plane in the order of their Morton codes, each with its weight: points, or area."""
    side = box.right - box.left + 1
    full = len(points) * count * SHARE > whole if whole else (WIDTH // side) ** 2 < count * SHARE
    if side == size or not full:
        yield box, len(points) if whole else side * side
        return
    half = side // 2
    for low in (box.low, box.low + half):
        for left in (box.left, box.left + half):
            part = Box(left, low, left + half - 1, low + half - 1)
            inside = [point for point in points if left <= point[0] <= part.right and low <= point[1] <= part.high]
            yield from quartered(part, inside, count, whole, size)
