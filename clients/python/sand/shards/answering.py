"""What a shard answers: rows of its program's cursors, as they were printed, with the keys of their ids."""
from __future__ import annotations

import itertools
from operator import itemgetter
from typing import Dict, Iterable, Iterator, List, Sequence, Tuple

from ..cursor import Cursor, Stats
from ..database import Sand
from .keys import Keys
from .messages import Asking, Changed, Firsts, Pulled
from .rows import Order, Printed, Reading, Sent, lines_of

# what a `far` may be asked for
MOST_ROWS = 1_000_000


class Opened:
    """An open cursor: the program's, None for a `far`, and the rows that are made of its own."""

    def __init__(self, source: Cursor | None, asking: Asking) -> None:
        self.source = source
        self.place = lines_of(asking.reading).place
        self.rows: Iterator[Sent] = iter(())
        self.asked = 0


class Answering:
    """A program, the keys of its ids by their relations, and its cursors."""

    def __init__(self) -> None:
        self._db: Sand
        self._keys: Dict[str, Keys] = {}
        self._cursors: Dict[str, Opened] = {}
        self._changes = 0

    def open(self, cursor: str, asking: Asking) -> None:
        """Opens a cursor, from which nothing is pulled yet."""
        self._cursors[cursor] = self._opened(asking)

    def _opened(self, asking: Asking) -> Opened:
        opened = Opened(None if asking.reading.is_far else self._db.rows(asking.plan, asking.most), asking)
        lines = iter(opened.source.line, None) if opened.source else self._farthest(asking.plan)
        opened.rows = self._by_key(self._sent(lines, asking.reading, opened), asking.reading)
        return opened

    def pull(self, cursor: str, count: int, bound: Order | None) -> Pulled:
        """The next rows of a cursor: so many at most, and none behind the first that doesn't come before the bound."""
        opened = self._cursors[cursor]
        rows: List[Sent] = []
        for row in opened.rows:
            rows.append(row)
            if len(rows) == count or bound is not None and not opened.place(row[0]) + row[1] < bound:
                return Pulled(Printed.of(rows), False, opened.asked)
        self.close(cursor)
        return Pulled(Printed.of(rows), True, opened.asked)

    def start(self, cursor: str, asking: Asking, count: int, bound: Order | None, is_all: bool) -> Pulled:
        """Opens a cursor and pulls its first rows; where `is_all`, so many rows are all that is wanted, and it is closed."""
        if is_all and bound is None and self._is_shown(asking.reading):
            (lines,) = self._db.shown([(asking.plan, count)])
            return Pulled(self._printed(lines, asking.reading), True, len(lines))
        self.open(cursor, asking)
        pulled = self.pull(cursor, count, bound)
        if is_all and pulled.rows.size == count and not pulled.is_last:
            self.close(cursor)
            return pulled._replace(is_last=True)
        return pulled

    def firsts(self, asked: Sequence[Tuple[Reading, Sequence[str], Sequence[int]]]) -> List[Firsts]:
        """The first rows of plans, so many of each at most, asked together where their rows are read alike."""
        return [self._firsts(reading, plans, counts) for reading, plans, counts in asked]

    def _firsts(self, reading: Reading, plans: Sequence[str], counts: Sequence[int]) -> Firsts:
        if self._is_shown(reading):
            shown = self._db.shown(list(zip(plans, counts)))
            return Firsts(self._printed(list(itertools.chain.from_iterable(shown)), reading), list(map(len, shown)))
        taken = [self._first(reading, plan, count) for plan, count in zip(plans, counts)]
        return Firsts(Printed.of(list(itertools.chain.from_iterable(taken))), list(map(len, taken)))

    def _first(self, reading: Reading, plan: str, count: int) -> List[Sent]:
        opened = self._opened(Asking(plan, reading, count))
        try:
            return list(itertools.islice(opened.rows, count))
        finally:
            if opened.source:
                opened.source.close()

    def stats(self, cursor: str) -> Stats | None:
        """What an open cursor has visited."""
        opened = self._cursors.get(cursor)
        return opened.source.stats() if opened and opened.source else None

    def close(self, cursor: str) -> None:
        """Closes a cursor, or does nothing where it is closed."""
        opened = self._cursors.pop(cursor, None)
        if opened and opened.source:
            opened.source.close()

    def _is_shown(self, reading: Reading) -> bool:
        """Whether the first rows of a plan are those that the program shows."""
        return not reading.decides and not reading.is_far and self._is_by_key(reading)

    def _printed(self, lines: List[str], reading: Reading) -> Printed:
        """Rows as they are sent, of lines with ids."""
        if not lines:
            return Printed.of(())
        form, fields = lines_of(reading), "\t".join(lines).split("\t")
        columns = [self._keys[relation].of(map(int, fields[at::form.width])) for at, relation in enumerate(reading.relations, form.ids)]
        return Printed("\n".join(lines), columns)

    def _sent(self, lines: Iterable[str], reading: Reading, opened: Opened) -> Iterator[Sent]:
        """The rows of lines, those left out whose home is another shard."""
        form, known = lines_of(reading), [self._keys[relation] for relation in reading.relations]
        for line in lines:
            opened.asked += 1
            ids = list(map(int, line.split("\t", form.values)[form.ids:form.values]))
            if not reading.decides or known[reading.decides - 1].is_home(ids[reading.decides - 1]):
                yield line, tuple([keys[number] for keys, number in zip(known, ids)])

    def _is_by_key(self, reading: Reading) -> bool:
        """Whether rows come by key where they come by id, since keys only grew."""
        return all(self._keys[relation].ascending for relation in reading.relations)

    def _by_key(self, rows: Iterator[Sent], reading: Reading) -> Iterator[Sent]:
        """Rows at one place of their order by their keys."""
        if self._is_by_key(reading):
            return rows
        place = lines_of(reading).place
        return itertools.chain.from_iterable(
            sorted(ties, key=itemgetter(1)) for _, ties in itertools.groupby(rows, lambda row: place(row[0])))

    def _farthest(self, plan: str) -> Iterator[str]:
        """The rows of a `far`, a statement that prints its rows at once: it is asked for twice as many each time."""
        given, count, changes = 0, 1, self._changes
        while True:
            if changes != self._changes:
                raise Changed(plan)
            lines = self._db.ask(f"far {count} {plan.split(None, 1)[1]}")
            is_last = lines[-1] == "end"
            yield from lines[given:len(lines) - is_last]
            if is_last or count == MOST_ROWS:
                return
            given, count = count, min(2 * count, MOST_ROWS)
