"""How a relation is spread over shards, and where a row goes."""
from __future__ import annotations

import re
from array import array
from typing import List, NamedTuple, Sequence, Tuple, Union
from zlib import crc32

from ..values import Value, field
from .errors import NotSpread
from .regions import WIDTH, Box, Regions

# a key: the value of a relation's key column
Key = Union[int, str]
CREATE = re.compile(r"[ \t]*create[ \t]+(\w+)[ \t]*\(([^()]*)\)[ \t]*", re.ASCII)
COLUMN = re.compile(r"[ \t]*(\w+)[ \t]+(\w+)[ \t]*", re.ASCII)
NUMBER_PAIR = re.compile(r"\([ \t]*(\d{1,9})[ \t]+(\d{1,9})[ \t]*\)", re.ASCII)
WHOLE_NUMBER = re.compile(r"[ \t]*(-?\d{1,30})[ \t]*", re.ASCII)
DIGITS = b"0123456789"
MARKS_AS_BLANKS = bytes.maketrans(b"(),", b"   ")


class Hash(NamedTuple):
    """Each row to one shard, by a hash of its key: work of large answers is spread evenly, each question goes to all."""
    key: str


class Region(NamedTuple):
    """Each row to the shard that has its place: the point, or first corner, of a spatial column.

    Shards whose squares lie farther from a question than its answer aren't asked. With a `margin`, in steps, also 0, a row is
    copied to each other shard that has a square so near to it; so a relation can stand on the right of a `join`, `semi` or
    `knn` with a ceiling up to the margin.
    """
    key: str
    column: str
    margin: int | None = None


class Copied(NamedTuple):
    """Each row to all shards: for relations on the right of a `join`, `semi`, `knn` or `match`."""
    key: str


Spread = Union[Hash, Region, Copied]


class Relation(NamedTuple):
    """A relation of shards: the `create` that makes it, its columns with their kinds, in order, and how it is spread."""
    statement: str
    name: str
    columns: Tuple[Tuple[str, str], ...]
    spread: Spread

    @classmethod
    def of(cls, statement: str, spread: Spread) -> Relation:
        """The relation that a `create` makes, to be spread so."""
        found = CREATE.fullmatch(statement)
        columns = [COLUMN.fullmatch(part) for part in found[2].split(",")] if found else []
        if not found or not all(columns):
            raise NotSpread(f"this is no `create`: {statement}")
        made = cls(statement, found[1], tuple((column[1], column[2]) for column in columns if column), spread)
        if made.kind(spread.key) not in ("int", "text"):
            raise NotSpread(f"the key column {spread.key} of {made.name} has to be an int or a text")
        if isinstance(spread, Region) and made.kind(spread.column) not in ("point", "segment", "polygon"):
            raise NotSpread(f"the column {spread.column} of {made.name} has to be spatial")
        return made

    def kind(self, column: str) -> str:
        """The kind of a column, empty where there is none."""
        return dict(self.columns).get(column, "")

    def place(self, column: str) -> int:
        """The number of a column, counted from 0."""
        return [name for name, _ in self.columns].index(column)

    @property
    def has_copies(self) -> bool:
        """Whether a shard may have rows whose home is another."""
        return isinstance(self.spread, Region) and self.spread.margin is not None


class Homes:
    """Where the rows of a relation go: the shards of a row, its home first."""

    def __init__(self, relation: Relation, count: int, regions: Regions) -> None:
        self._count = count
        self._regions = regions
        self._spread = relation.spread
        self._key = relation.place(relation.spread.key)
        self._is_number = relation.kind(relation.spread.key) == "int"
        self._place = relation.place(self._spread.column) if isinstance(self._spread, Region) else 0
        self.is_copied = isinstance(self._spread, Copied)
        self.is_hashed = isinstance(self._spread, Hash)

    def key(self, row: Sequence[Value]) -> Key:
        """The key of a row of values, or of the fields of a record; ValueError with the number of the column, from 0."""
        if self._key < len(row):
            return self.key_of(row[self._key])
        raise ValueError(len(row))

    def key_of(self, value: Value) -> Key:
        """The key that stands in the key column; ValueError as `key`."""
        if self._is_number and isinstance(value, str):
            found = WHOLE_NUMBER.fullmatch(value)
            if found:
                return int(found[1])
        elif self._is_number and isinstance(value, int) and not isinstance(value, bool):
            return value
        elif not self._is_number and isinstance(value, str):
            return value
        raise ValueError(self._key)

    def of_fields(self, fields: Sequence[bytes], width: int) -> Tuple[Sequence[Key], List[int]]:
        """The keys and homes of records, of all their fields, so many each with the line end; ValueError where one isn't plain.

        Plain are numbers and points as the program prints them. The homes of rows that have copies aren't told so.
        """
        if max(self._key, self._place) >= width - 1:
            raise ValueError("a field is missing")
        texts = fields[self._key::width]
        keys: Sequence[Key]
        if self._is_number:
            keys = plain_numbers(texts)
        else:
            keys = [text.decode("utf-8", "surrogateescape") for text in texts]
        if isinstance(self._spread, Hash):
            return keys, list(map(self._hashed, keys))
        if isinstance(self._spread, Copied) or self._spread.margin is not None:
            raise ValueError("rows have copies")
        return keys, self._regions.all_homes(*plain_points(fields[self._place::width]))

    def of_key(self, key: Key) -> List[int]:
        """The shard of a key that is spread by a hash."""
        return [self._hashed(key)]

    def _hashed(self, key: Key) -> int:
        return crc32(str(key).encode("utf-8", "surrogateescape")) % self._count

    def shards(self, key: Key, row: Sequence[Value]) -> List[int]:
        """The shards that a row goes to; ValueError with the number of a column in which no place stands."""
        if isinstance(self._spread, Copied):
            return list(range(self._count))
        if isinstance(self._spread, Hash):
            return self.of_key(key)
        text = field(row[self._place]) if self._place < len(row) else ""
        first = NUMBER_PAIR.search(text)
        if not first or int(first[1]) >= WIDTH or int(first[2]) >= WIDTH:
            raise ValueError(min(self._place, len(row)))
        home = self._regions.home(int(first[1]), int(first[2]))
        if self._spread.margin is None:
            return [home]
        box = Box.round([(int(x), int(y)) for x, y in NUMBER_PAIR.findall(text)])
        return [home, *(shard for shard in self._regions.near(box, self._spread.margin) if shard != home)]


def plain_numbers(texts: Sequence[bytes]) -> Sequence[int]:
    """The numbers of fields that are printed so; OverflowError where one has more than 64 bits."""
    if b"".join(texts).translate(None, DIGITS + b"-"):
        raise ValueError("a field is no plain number")
    return array("q", map(int, texts))


def plain_points(texts: Sequence[bytes]) -> Tuple[List[int], List[int]]:
    """The coordinates of fields that are printed so, points of the plane."""
    text = b",".join(texts)
    numbers = list(map(int, text.translate(MARKS_AS_BLANKS).split()))
    is_plain = text.translate(None, DIGITS) == b",".join([b"( )"] * len(texts)) and len(numbers) == 2 * len(texts)
    if not is_plain or max(numbers, default=0) >= WIDTH:
        raise ValueError("a field is no plain point")
    return numbers[::2], numbers[1::2]
