"""Shapes, rows, and values as they stand in a script."""
from __future__ import annotations

import re
from fractions import Fraction
from typing import Any, Iterable, NamedTuple, Tuple, Union


class Point(NamedTuple):
    """A point of the grid, 0 to 1,048,575 each way."""
    x: int
    y: int

    def __str__(self) -> str:
        return f"({self[0]} {self[1]})"


class Segment(NamedTuple):
    """A segment with both its ends."""
    start: Point
    end: Point

    def __str__(self) -> str:
        return f"{Point(*self.start)}-{Point(*self.end)}"


class Polygon(NamedTuple):
    """A polygon of one ring, 3 to 64 corners; the last is joined to the first."""
    corners: Tuple[Point, ...]

    def __str__(self) -> str:
        return f"({' '.join(str(Point(*corner)) for corner in self.corners)})"


Shape = Union[Point, Segment, Polygon]
Value = Union[int, str, Shape]
NUMBER_PAIR = re.compile(r"\((\d+) (\d+)\)")


def read_shape(text: str) -> Shape:
    """The shape that the program printed."""
    corners = tuple(Point(int(x), int(y)) for x, y in NUMBER_PAIR.findall(text))
    if text.startswith("(("):
        return Polygon(corners)
    return Segment(*corners) if len(corners) == 2 else Point(*corners[0])


def literal(value: Value) -> str:
    """A value as it stands in a script: `5`, `"a ""quoted"" word"`, `(1 2)`. A pair of whole numbers is a point."""
    if isinstance(value, str):
        return '"' + value.replace('"', '""') + '"'
    return field(value)


def field(value: Value) -> str:
    """A value as a field of a data file, before its quotes."""
    if isinstance(value, (str, Point, Segment, Polygon)):
        return str(value)
    if isinstance(value, int) and not isinstance(value, bool):
        return str(value)
    if isinstance(value, tuple) and len(value) == 2 and all(type(number) is int for number in value):
        return str(Point(*value))
    raise TypeError(f"{value!r} is no value of a row: an int, a str, a Point, a Segment or a Polygon is one")


class Row(Tuple[Any, ...]):
    """A row of a plan: its gap if it has one, its ids, and its values, in one tuple.

    `gap` is the squared distance in steps of the grid, exactly, or None; `ids` and `values` are the other parts.
    """
    gap: Fraction | None
    ids: tuple[int, ...]
    values: tuple[Value, ...]

    def __new__(cls, gap: Fraction | None, ids: Iterable[int], values: Iterable[Value]) -> Row:
        ids, values = tuple(ids), tuple(values)
        parts: tuple[Any, ...] = ids + values if gap is None else (gap, *ids, *values)
        row = super().__new__(cls, parts)
        row.gap, row.ids, row.values = gap, ids, values
        return row


def read_gap(text: str) -> Fraction:
    """The gap that the program printed: `n` or `n/d`."""
    over, _, under = text.partition("/")
    return Fraction(int(over), int(under)) if under else Fraction(int(over))
