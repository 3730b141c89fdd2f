"""The places of a CSV: its records with their latitudes and longitudes."""
from __future__ import annotations

import argparse
from typing import Iterator, Optional

from degrees import degrees
from fields import Column
from tool import Source


class Places:
    """The records of a CSV with their latitudes and longitudes."""

    def __init__(self, wanted: argparse.Namespace, columns: list[Column]) -> None:
        self.source = Source.read(wanted.input)
        self.bad = 0
        quoted = not wanted.tab
        delimiter = wanted.delimiter if quoted else "\t"
        self._records = self.source.records(delimiter, quoted)
        self._skips = wanted.skip
        line, first = next(self._records)
        header = None if wanted.bare else [name.strip() for name in first]
        if header is None:
            self._records = self.source.records(delimiter, quoted)
        self.width = len(first)
        self.lat, self.lon, *self.columns = (
            self._place(line, header, where) for where in (wanted.lat, wanted.lon, *(column.where for column in columns)))

    def _place(self, line: int, header: Optional[list[str]], where: str) -> int:
        if header is not None and where in header:
            return header.index(where)
        if header is None and where.isdigit() and 1 <= int(where) <= self.width:
            return int(where) - 1
        there = f"numbers 1 to {self.width}" if header is None else ", ".join(header)
        self.source.fail(line, f"it has no column '{where}'; it has {there}")

    def __iter__(self) -> Iterator[tuple[int, list[str], float, float]]:
        width, lat, lon = self.width, self.lat, self.lon
        for line, record in self._records:
            try:
                if len(record) != width:
                    raise ValueError(f"it has {len(record)} fields, and the first line has {width}")
                yield line, record, degrees(record[lat], 90, "latitude"), degrees(record[lon], 180, "longitude")
            except ValueError as error:
                self.refuse(line, str(error))

    def refuse(self, line: int, what: str) -> None:
        """Complains of a record, or counts it where these are passed over."""
        if not self._skips:
            self.source.fail(line, what + "; --skip leaves such records out")
        self.bad += 1
