"""One cursor a shard, merged: the least next row of all is given, and a shard is asked when its next row may be that."""
from __future__ import annotations

import heapq
from collections import deque
from typing import Any, Deque, Iterator, List, Sequence, Tuple

from ..cursor import Stats
from .errors import ShardLost
from .links import Link, Pending, all_of
from .messages import Asking, Pulled
from .rows import Came, KeyedRow, Order, lines_of


class Source:
    """The rows of one shard. `place` is that of its next row in the order of all, or one before it."""

    def __init__(self, link: Link, cursor: str, asking: Asking, floor: Order) -> None:
        self.link = link
        self.cursor = cursor
        self.place = floor
        self.is_open = False
        self.is_spent = False
        self.asked = 0
        self._asking = asking
        self._lines = lines_of(asking.reading)
        self._batch = 1
        self._waiting: Deque[Came] = deque()

    @property
    def has_row(self) -> bool:
        return bool(self._waiting)

    @property
    def is_over(self) -> bool:
        return self.is_spent and not self._waiting

    def opening(self) -> Pending:
        """Opens it."""
        self.is_open = True
        return self.link.ask("open", self.cursor, self._asking)

    def pulling(self, wanted: int, bound: Order | None, is_all: bool) -> Pending:
        """Asks for rows: for those before the bound and one more, or, where it may pull ahead, for a batch."""
        count = wanted
        if self._asking.most > 1:
            count, bound = max(self._batch, min(wanted, self._asking.most)), None
            self._batch = min(2 * count, self._asking.most)
        if self.is_open:
            return self.link.ask("pull", self.cursor, count, bound)
        self.is_open = True
        return self.link.ask("start", self.cursor, self._asking, count, bound, is_all and count >= wanted)

    def receive(self, pulled: Pulled) -> None:
        self._waiting.extend(self._lines.came(pulled.rows))
        self.asked = pulled.asked
        if pulled.is_last:
            self.is_spent, self.is_open = True, False
        self._look()

    def take(self) -> KeyedRow:
        row = self._lines.row(self._waiting.popleft())
        self._look()
        return row

    def _look(self) -> None:
        if self._waiting:
            self.place = self._waiting[0][0]


class SpreadCursor(Iterator[KeyedRow]):
    """The rows of a plan over all shards, by what its rows come by, then by their keys.

    With `most` 1 a shard is asked for a row only where it may be the next one; so n shards are asked for k + n rows at most
    where k were given. Else shards are asked for one, two, four rows and so on, up to `most`. Where a shard is lost or
    refuses, each further call raises that. It is closed at its end, by `close`, at the end of a `with`, and when nobody
    holds it any more.
    """

    def __init__(self, sources: Sequence[Source], limit: int | None, wanted: int = 0) -> None:
        self._sources: List[Source] = list(sources)
        # the place of each source's next row, or one before it, and the source's number, least first
        self._queue: List[Tuple[Order, int]] = [(source.place, number) for number, source in enumerate(sources)]
        heapq.heapify(self._queue)
        self._left = limit
        self._wanted = wanted
        self.failure: Exception | None = None
        if not wanted:
            self._answers([source.opening() for source in self._sources])

    def __next__(self) -> KeyedRow:
        rows = self.take(1)
        if not rows:
            raise StopIteration
        return rows[0]

    def take(self, count: int) -> List[KeyedRow]:
        """The next rows, so many at most; asked for in fewer messages than one by one."""
        rows: List[KeyedRow] = []
        if self.failure:
            raise self.failure
        while len(rows) < count and self._left != 0 and self._queue:
            source = self._sources[self._queue[0][1]]
            if not source.has_row:
                self._pull(count - len(rows) if self._left is None else min(count - len(rows), self._left))
                continue
            rows.append(source.take())
            if source.is_over:
                heapq.heappop(self._queue)
            else:
                heapq.heapreplace(self._queue, (source.place, self._queue[0][1]))
            if self._left is not None:
                self._left -= 1
        if len(rows) < count:
            self.leave()
        return rows

    def _pull(self, wanted: int) -> None:
        """Asks the sources that may have the next row, those that can't be told apart together."""
        least = self._queue[0][0]
        asked: List[int] = []
        while self._queue and self._queue[0][0] == least and not self._sources[self._queue[0][1]].has_row:
            asked.append(heapq.heappop(self._queue)[1])
        bound = least if len(asked) > 1 else self._queue[0][0] if self._queue else None
        answers = self._answers([self._sources[number].pulling(wanted, bound, bool(self._wanted)) for number in asked])
        for number, pulled in zip(asked, answers):
            source = self._sources[number]
            source.receive(pulled)
            if not source.is_over:
                heapq.heappush(self._queue, (source.place, number))

    def _answers(self, calls: Sequence[Pending]) -> List[Any]:
        """What calls of shards give; a failure is the cursor's from then on."""
        try:
            found = all_of({call.shard: call for call in calls})
        except BaseException as failure:
            # rows may be on their way that nobody takes any more, so it can't go on
            self.failure = failure if isinstance(failure, Exception) else RuntimeError("the cursor was broken off")
            self.leave()
            raise
        return [found[call.shard] for call in calls]

    @property
    def asked(self) -> int:
        """How many rows the programs of all shards were asked for and have given."""
        return sum(source.asked for source in self._sources)

    def stats(self) -> Stats:
        """What the cursors that are still open in shards have visited."""
        found = all_of({source.link.number: source.link.ask("stats", source.cursor) for source in self._sources if source.is_open})
        return Stats(*map(sum, zip(*[(0, 0, 0, 0), *filter(None, found.values())])))

    def close(self) -> None:
        """Closes the cursor in all shards; no row is given any more."""
        self._left = 0
        calls = [source.link.ask("close", source.cursor) for source in self._sources if source.is_open]
        for source in self._sources:
            source.is_open = False
        for call in calls:
            try:
                call.wait()
            except ShardLost:
                # what is gone is closed
                pass

    def leave(self) -> None:
        """Closes the cursor in all shards, and waits for none of them; rows that are at hand are still given."""
        for source in self._sources:
            if source.is_open:
                source.is_open = False
                source.link.ask("close", source.cursor)

    def __enter__(self) -> SpreadCursor:
        return self

    def __exit__(self, *_: object) -> None:
        self.close()

    def __del__(self) -> None:
        # whoever is in the middle of a call now isn't disturbed: closed before the next one
        for source in getattr(self, "_sources", []):
            if source.is_open:
                source.link.abandoned.append(source.cursor)
