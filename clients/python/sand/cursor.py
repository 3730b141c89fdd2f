"""A cursor: rows of a plan, pulled as they are asked for."""
from __future__ import annotations

from collections import deque
from typing import TYPE_CHECKING, Callable, Iterator, NamedTuple

from .plan_text import row_form
from .refusal import Refused
from .values import Row, Value, read_gap, read_shape

if TYPE_CHECKING:
    from .database import Sand

MOST_AT_ONCE = 1024


class Stats(NamedTuple):
    """What a cursor has visited, and how many rows it gave; more than were asked of it, where it pulled ahead."""
    blocks: int
    pairs: int
    geometries: int
    rows: int


class RowReader:
    """Reads the rows of a plan off the lines that the program printed."""

    def __init__(self, database: Sand, plan: str) -> None:
        self._database = database
        self._plan = plan
        self._form = row_form(plan)
        self._readers: list[Callable[[str], Value]] | None = None

    def read(self, line: str) -> Row:
        if self._readers is None:
            kinds = map(self._database.kind_of, self._form.places)
            self._readers = [{"int": int, "text": str}.get(kind, read_shape) for kind in kinds]
        fields = line.split("\t")
        ids_end = len(fields) - len(self._readers)
        ids_start = ids_end - len(self._form.relations)
        if ids_start not in (0, 1):
            raise ValueError(f"the row {line!r} isn't of the form that its plan tells: {self._plan}")
        gap = read_gap(fields[0]) if ids_start else None
        ids = map(int, fields[ids_start:ids_end])
        return Row(gap, ids, [read(text) for read, text in zip(self._readers, fields[ids_end:])])


class Cursor(Iterator[Row]):
    """The rows of a plan over the relations as they stood at the opening.

    Rows are pulled one, two, four at a time and so on, up to `most` (1: never ahead). It is closed at the end of its rows,
    by `close`, at the end of a `with`, and when nobody holds it any more.
    """

    def __init__(self, database: Sand, name: str, plan: str, most: int) -> None:
        if most < 1:
            raise ValueError("a batch has one row at least")
        self._database = database
        self.name = name
        self.plan = plan
        self._most = most
        self._batch = 1
        self._waiting: deque[str] = deque()
        self._reader = RowReader(database, plan)
        self._refusal: Refused | None = None
        self._is_open = False
        database.tell(f"open {name} = {plan}")
        self._is_open = True

    def __next__(self) -> Row:
        line = self.line()
        if line is None:
            raise StopIteration
        return self._reader.read(line)

    def line(self) -> str | None:
        """The next row as the program printed it, None behind the last."""
        if not self._waiting:
            self._pull()
        return self._waiting.popleft() if self._waiting else None

    def _pull(self) -> None:
        if self._refusal:
            refusal, self._refusal = self._refusal, None
            raise refusal
        if not self._is_open:
            return
        try:
            lines = self._database.ask(f"next {self.name} {self._batch}")
        except Refused as refusal:
            # rows that came before a page failed are given first
            if not refusal.given:
                raise
            self._refusal, lines = refusal, refusal.given
        if lines[-1] == "end":
            lines.pop()
            self.close()
        self._batch = min(2 * self._batch, self._most)
        self._waiting.extend(lines)

    def take(self, count: int) -> list[Row]:
        """The next rows, so many at most."""
        return [row for _, row in zip(range(count), self)]

    def stats(self) -> Stats:
        """What the open cursor has visited."""
        words = self._database.ask(f"stats {self.name}")[0].split(" ")
        return Stats(*map(int, words[1::2]))

    def close(self) -> None:
        """Closes the cursor; rows that it has pulled are still given. A second time does nothing."""
        if self._is_open:
            self._is_open = False
            self._database.close_cursor(self.name)

    def __enter__(self) -> Cursor:
        return self

    def __exit__(self, *_: object) -> None:
        self.close()

    def __del__(self) -> None:
        # whoever holds the pipe now may be in the middle of an answer: it is closed before the next statement
        if getattr(self, "_is_open", False):
            self._is_open = False
            self._database.close_later(self.name)
