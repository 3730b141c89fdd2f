"""Rows of an answer over shards, and how they are read off the lines that a shard's program printed."""
from __future__ import annotations

from fractions import Fraction
from functools import lru_cache
from typing import Any, Callable, Iterable, List, Mapping, NamedTuple, Optional, Sequence, Tuple, Type, Union

from ..values import Value, read_shape
from .plans import Gap, Part, Place
from .spread import Key

# ints and fractions compare exactly, and ints sooner
Exact = Union[int, Fraction]
# the place of a row among the rows of all shards: by what it comes, then its keys; or a beginning of that
Order = Tuple[Any, ...]
# a row as a shard sends it: the line that its program printed, and the keys that stand where ids stand there
Sent = Tuple[str, Tuple[Key, ...]]
# a row as it came: its place in the order of all, its gap, and its keys with its values as they were printed
Came = Tuple[Order, Optional[Exact], Tuple[Any, ...]]
READERS: Mapping[str, Callable[[str], Value]] = {"int": int, "text": str}


class KeyedRow(Tuple[Any, ...]):
    """A row of a plan: its gap if it has one, its keys, and its values, in one tuple.

    `gap` is the squared distance in steps of the grid, exactly, or None; `keys` stand where one program has ids, and `values`
    are the values that were fetched.
    """
    # rows are many, so they have no dictionaries: where their parts stand is told by their class
    __slots__ = ()
    _keys = slice(0, 0)
    _values = slice(0, None)

    @property
    def gap(self) -> Fraction | None:
        return self[0] if self._keys.start else None

    @property
    def keys(self) -> Tuple[Key, ...]:
        return tuple(self[self._keys])

    @property
    def values(self) -> Tuple[Value, ...]:
        return tuple(self[self._values])

    def __reduce__(self) -> Tuple[Any, ...]:
        return keyed_row, (self._keys.start, self._keys.stop, tuple(self))


@lru_cache(None)
def row_class(begin: int, end: int) -> Type[KeyedRow]:
    """The class of rows whose keys stand from one place up to another."""
    return type("KeyedRow", (KeyedRow,), {"__slots__": (), "_keys": slice(begin, end), "_values": slice(end, None)})


def keyed_row(begin: int, end: int, parts: Iterable[Any]) -> KeyedRow:
    """The row with such parts."""
    return row_class(begin, end)(parts)


class Reading(NamedTuple):
    """What a shard is told of a plan's rows: the relations of the ids, the kinds of the values, and by what rows come.

    `has_gap` tells whether a row begins with its gap; `decides` is the number of the id whose home gives the row, 0 where all
    rows count. The ints that rows come by stand behind their values in a line.
    """
    has_gap: bool
    relations: Tuple[str, ...]
    kinds: Tuple[str, ...]
    order: Tuple[Part, ...]
    decides: int

    @property
    def is_far(self) -> bool:
        """Whether the plan is a `far`, a statement that is taken for one."""
        return self.order == (Gap(-1),)


class Printed(NamedTuple):
    """Rows as they are sent: their lines, joined, and the keys of their first ids, of their second ids and so on."""
    text: str
    keys: List[List[Key]]

    @classmethod
    def of(cls, rows: Sequence[Sent]) -> Printed:
        """What is sent of rows."""
        return cls("\n".join([line for line, _ in rows]), [list(keys) for keys in zip(*[keys for _, keys in rows])])

    @property
    def size(self) -> int:
        """How many rows these are."""
        return len(self.keys[0]) if self.keys else 0


class Lines:
    """Reads the lines of a plan's rows: a gap where there is one, ids, values and the ints that rows come by."""

    def __init__(self, reading: Reading) -> None:
        # where in a line ids begin, and values, and behind these what rows come by
        self.ids = int(reading.has_gap)
        self.values = self.ids + len(reading.relations)
        self._order = reading.order
        self._readers = [READERS.get(kind, read_shape) for kind in reading.kinds]
        self._are_texts = all(read is str for read in self._readers)
        self._end = self.values + len(self._readers)
        self.width = self._end + sum(isinstance(part, Place) for part in reading.order)
        self._row = row_class(self.ids, self.values)

    def place(self, line: str) -> Order:
        """The place of a row in the order of all, but for its keys."""
        fields = line.split("\t")
        fetched = iter(fields[self._end:])
        return tuple([int(next(fetched)) if isinstance(part, Place) else part.sign * exact(fields[0]) for part in self._order])

    def came(self, printed: Printed) -> List[Came]:
        """Rows that were sent, column by column, since that takes the least time."""
        if not printed.keys:
            return []
        fields = printed.text.replace("\n", "\t").split("\t")
        columns = [fields[at::self.width] for at in range(self.width)]
        gaps: List[Any] = list(map(exact, columns[0])) if self.ids else [None] * printed.size
        places = iter(columns[self._end:])
        order: List[List[Any]] = [
            list(map(int, next(places))) if isinstance(part, Place) else gaps if part.sign > 0 else [-gap for gap in gaps]
            for part in self._order]
        return list(zip(zip(*order, *printed.keys), gaps, zip(*printed.keys, *columns[self.values:self._end])))

    def row(self, came: Came) -> KeyedRow:
        """A row that came."""
        _, gap, parts = came
        if not self._are_texts:
            end = self.values - self.ids
            parts = (*parts[:end], *[read(text) for read, text in zip(self._readers, parts[end:])])
        return self._row(parts if gap is None else (Fraction(gap), *parts))


@lru_cache(256)
def lines_of(reading: Reading) -> Lines:
    """What reads the lines of such rows."""
    return Lines(reading)


def exact(text: str) -> Exact:
    """The gap that the program printed: `n` or `n/d`."""
    return Fraction(*map(int, text.split("/"))) if "/" in text else int(text)
