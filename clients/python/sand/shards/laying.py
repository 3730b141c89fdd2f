"""The rows of a load, laid down for one shard in data files, by key."""
from __future__ import annotations

import itertools
import os
import pickle
import tempfile
from array import array
from operator import le
from typing import Iterable, Iterator, List, NamedTuple, Sequence

from ..refusal import Refused
from .parts import BAD_RECORD, Keyed, Piece, bad_record, packed
from .spread import Key

# a load takes 67,108,864 bytes; more rows of a shard come in by several
MOST_BYTES = 60_000_000
LIST = "files.pickle"


class File(NamedTuple):
    """A data file that was laid down for one shard: its name, and of each record the key, whether it is a copy, and its origin.

    An origin is the number of its part, counted from 0, and its own number there.
    """
    name: str
    keys: Keyed
    copies: bytes
    parts: List[str]
    origins: array[int]
    numbers: array[int]

    def refused(self, refusal: Refused) -> Refused:
        """A refusal of this file as one of the part in which the record stood."""
        if refusal.number != BAD_RECORD:
            return refusal
        at = refusal.details[0] - 1
        return bad_record(self.parts[self.origins[at]], self.numbers[at], refusal.details[1])


class Rows:
    """The rows of a shard, of all pieces."""

    def __init__(self, pieces: Sequence[Piece]) -> None:
        self._pieces = pieces
        self._parts = [piece.part for piece in pieces]
        self.keys: List[Key] = list(itertools.chain.from_iterable(piece.keys for piece in pieces))
        self.bytes = sum(len(piece.text) for piece in pieces)
        self._numbers = joined(piece.numbers for piece in pieces)
        self._origins = joined(array("I", [number]) * len(piece.keys) for number, piece in enumerate(pieces))
        self._copies = b"".join(piece.copies for piece in pieces)

    def whole(self, name: str) -> File:
        """A file of all rows as they came."""
        with open(name, "wb") as file:
            file.writelines(piece.text for piece in self._pieces)
        return File(name, packed(self.keys), self._copies, self._parts, self._origins, self._numbers)

    def some(self, name: str, rows: Sequence[int], records: Sequence[bytes]) -> File:
        """A file of some of the rows, which are told by their numbers, counted from 0."""
        with open(name, "wb") as file:
            file.writelines([records[row] for row in rows])
        return File(name, packed([self.keys[row] for row in rows]), bytes([self._copies[row] for row in rows]), self._parts,
                    array("I", [self._origins[row] for row in rows]), array("I", [self._numbers[row] for row in rows]))

    def records(self) -> List[bytes]:
        return [record for piece in self._pieces for record in piece.records()]


def joined(arrays: Iterable[array[int]]) -> array[int]:
    """Arrays, one behind the other."""
    return array("I", itertools.chain.from_iterable(arrays))


def lay_down(pieces: Sequence[Piece]) -> str:
    """Writes the rows of a shard into a new folder on this machine, by key, equal ones as they came; the folder."""
    rows = Rows(pieces)
    folder = tempfile.mkdtemp(prefix="sand-shard-")
    with open(os.path.join(folder, LIST), "wb") as file:
        pickle.dump(list(files(rows, folder)), file)
    return folder


def files(rows: Rows, folder: str) -> Iterator[File]:
    """Writes the files of a shard's rows."""
    keys = rows.keys
    is_sorted = all(map(le, keys, itertools.islice(keys, 1, None)))
    if not keys:
        return
    if is_sorted and rows.bytes <= MOST_BYTES:
        yield rows.whole(os.path.join(folder, "0.csv"))
        return
    order = list(range(len(keys))) if is_sorted else sorted(range(len(keys)), key=keys.__getitem__)
    records = rows.records()
    for number, some in enumerate(chunks(order, list(map(len, records)))):
        yield rows.some(os.path.join(folder, f"{number}.csv"), some, records)


def chunks(order: Sequence[int], lengths: Sequence[int]) -> Iterator[Sequence[int]]:
    """Rows in runs, each of which a `load` takes."""
    begin = size = 0
    for at, row in enumerate(order):
        size += lengths[row]
        if size > MOST_BYTES and at > begin:
            yield order[begin:at]
            begin, size = at, lengths[row]
    yield order[begin:]


def laid_down(folder: str) -> List[File]:
    """The data files of a folder."""
    with open(os.path.join(folder, LIST), "rb") as file:
        found: List[File] = pickle.load(file)
    return found
