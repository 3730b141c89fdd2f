"""Data files, parted among shards: records are read, sent to their shards, and laid down there in the order of their keys."""
from __future__ import annotations

import csv
import io
import itertools
from array import array
from typing import Iterable, Iterator, List, NamedTuple, Sequence, TextIO, Tuple, Union

from ..database import fields
from ..refusal import Refused
from ..values import Value, literal
from .spread import Homes, Key

BAD_RECORD = 16
MARK = b"\xef\xbb\xbf"
# keys in the fewest bytes: an array of ints, or a list of texts
Keyed = Union["array[int]", List[Key]]


class Piece(NamedTuple):
    """The rows of one part, a file or what a caller gave, that go to one shard.

    `text` has their records as they stood, each with its line end, and `lengths` the bytes of each, None where each is a line. A
    row has its key, its number in the part, counted from 1, and a byte of `copies`, 1 where its home is another shard.
    """
    part: str
    keys: Keyed
    text: bytes
    lengths: array[int] | None
    numbers: array[int]
    copies: bytes

    def records(self) -> List[bytes]:
        """Its records, each with its line end."""
        if self.lengths is None:
            return self.text.splitlines(keepends=True)
        ends = list(itertools.accumulate(self.lengths))
        return [self.text[begin:end] for begin, end in zip([0, *ends], ends)]


def packed(keys: Sequence[Key]) -> Keyed:
    """Keys in the fewest bytes."""
    try:
        return array("q", keys)  # type: ignore[arg-type]
    except (OverflowError, TypeError):
        return list(keys)


def bad_record(part: str, number: int, column: int) -> Refused:
    """The refusal of a record; number and column are counted from 1."""
    return Refused(BAD_RECORD, "BadRecord", (number, column), f"load {literal(part)}", [])


def split(path: str, has_header: bool, homes: Homes, count: int) -> List[Piece]:
    """The pieces of a data file, one for each shard; `Refused` where a record has no key or no place."""
    with open(path, "rb") as file:
        data = file.read()
    pieces = split_plain(path, data, has_header, homes, count)
    return split_any(path, data, has_header, homes, count) if pieces is None else pieces


def split_any(path: str, data: bytes, has_header: bool, homes: Homes, count: int) -> List[Piece]:
    """The pieces of a data file, record by record."""
    text = io.TextIOWrapper(io.BytesIO(data), encoding="utf-8-sig", errors="surrogateescape")
    numbered = enumerate(records(text), 1)
    if has_header:
        next(numbered, None)
    return parted(path, ((number, record, row) for number, (record, row) in numbered), homes, count)


def split_plain(path: str, data: bytes, has_header: bool, homes: Homes, count: int) -> List[Piece] | None:
    """The pieces of a data file without quotes whose records all have a key and a place; None where it isn't known to be one."""
    if b'"' in data or b"\r" in data:
        return None
    lines = (data[len(MARK):] if data.startswith(MARK) else data).splitlines(keepends=True)
    if lines and not lines[-1].endswith(b"\n"):
        lines[-1] += b"\n"
    lines = [line for line in lines if line != b"\n"][has_header:]
    width = lines[0].count(b",") + 2 if lines else 0
    # all fields in one list, with the line end behind those of each record: a list for each would take longer than the rest
    all_fields = b"".join(lines).replace(b"\n", b",\n,").split(b",")
    if not width or all_fields[width - 1::width] != [b"\n"] * len(lines):
        return None
    try:
        keys, found = homes.of_fields(all_fields[:-1], width)
    except (ValueError, OverflowError):
        # which record is bad, and in which column, is told by those who read them one by one
        return None
    rows: List[List[int]] = [[] for _ in range(count)]
    for at, home in enumerate(found):
        rows[home].append(at)
    return [Piece(path, packed([keys[at] for at in some]), b"".join([lines[at] for at in some]), None,
                  array("I", [1 + has_header + at for at in some]), bytes(len(some))) for some in rows]


def split_rows(rows: Iterable[Sequence[Value]], homes: Homes, count: int) -> List[Piece]:
    """The pieces of rows of values."""
    return parted("rows", ((number, record(row), row) for number, row in enumerate(rows, 1)), homes, count)


def parted(part: str, numbered: Iterable[Tuple[int, str, Sequence[Value]]], homes: Homes, count: int) -> List[Piece]:
    rows: List[List[Tuple[Key, bytes, int, bool]]] = [[] for _ in range(count)]
    for number, text, row in numbered:
        try:
            key = homes.key(row)
            shards = homes.shards(key, row)
        except ValueError as wrong:
            raise bad_record(part, number, wrong.args[0] + 1) from None
        data = text.encode("utf-8", "surrogateescape")
        is_copy = False
        for shard in shards:
            rows[shard].append((key, data, number, is_copy))
            is_copy = not homes.is_copied
    return [Piece(part, packed([key for key, _, _, _ in some]), b"".join([data for _, data, _, _ in some]),
                  array("I", [len(data) for _, data, _, _ in some]), array("I", [number for _, _, number, _ in some]),
                  bytes([is_copy for _, _, _, is_copy in some])) for some in rows]


def records(file: TextIO) -> Iterator[Tuple[str, List[str]]]:
    """The records of a data file, each as it stands with its line end, and its fields."""
    for line in file:
        if line == "\n":
            continue
        if '"' not in line:
            yield ended(line), line.rstrip("\n").split(",")
            continue
        # a quoted field may run over lines, of which the reader takes as many as it needs
        taken = [line]
        try:
            row = next(csv.reader(itertools.chain([line], noted(file, taken))))
        except csv.Error:
            # a field longer than any text
            row = []
        yield ended("".join(taken)), row


def ended(record: str) -> str:
    """A record with its line end, which the last of a file may lack."""
    return record if record.endswith("\n") else record + "\n"


def noted(lines: Iterable[str], taken: List[str]) -> Iterator[str]:
    for line in lines:
        taken.append(line)
        yield line


def record(row: Sequence[Value]) -> str:
    """A row of values as a record."""
    return ",".join(quoted(text) for text in fields(row)) + "\n"


def quoted(text: str) -> str:
    if text and not any(mark in text for mark in '",\r\n'):
        return text
    return '"' + text.replace('"', '""') + '"'
