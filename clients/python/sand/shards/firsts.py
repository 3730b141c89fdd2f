"""The first rows of many plans: few messages, each with what a shard is asked for all of them.

Where rows are spread by a hash, each shard is asked for its share of them and some more; it is asked for all that are wanted
where those weren't enough. Squares that may be nearer than the rows that are here are asked once these are known.
"""
from __future__ import annotations

import itertools
import math
from typing import Any, Dict, List, NamedTuple, Sequence, Tuple

from .links import Link, all_of
from .messages import Firsts
from .planning import Planned
from .rows import Came, KeyedRow, Order, Reading, lines_of

# more plans go by several messages, since a program takes so many bytes of statements between two starts
MOST_PLANS = 10_000


class Ask(NamedTuple):
    """What a shard is asked of a plan: so many rows at most."""
    shard: int
    most: int


class First:
    """The first rows of a plan, as shards give them. A shard that is asked again gives its rows anew, as they are then."""

    def __init__(self, planned: Planned, count: int) -> None:
        self.planned = planned
        self._count = count if planned.limit is None else min(count, planned.limit)
        # of shards that may have more rows, a place before which none of these comes
        self._floors: Dict[int, Order] = {shard: floor for floor, shard in planned.starts}
        self._given: Dict[int, List[Came]] = {}
        self._best: List[Came] = []

    def asks(self) -> List[Ask]:
        """What shards are asked next; nothing where all rows are here."""
        if self._count < 1:
            return []
        if not self._given:
            return self._first_asks()
        self._best = self._merged()
        if not self._floors:
            return []
        last = self._best[-1][0] if len(self._best) == self._count else None
        return [Ask(shard, self._count) for shard, floor in self._floors.items() if last is None or floor < last]

    def _first_asks(self) -> List[Ask]:
        """The shards that come first, as far as is known, for all rows, or where these are spread evenly for their share."""
        least = min(self._floors.values(), default=())
        shards = [shard for shard, floor in self._floors.items() if floor == least]
        count = share(self._count, len(shards)) if self.planned.is_even else self._count
        return [Ask(shard, count) for shard in shards]

    def receive(self, ask: Ask, rows: List[Came]) -> None:
        """The rows that a shard has given."""
        self._given[ask.shard] = rows
        if len(rows) == ask.most < self._count:
            self._floors[ask.shard] = rows[-1][0]
        else:
            del self._floors[ask.shard]

    def _merged(self) -> List[Came]:
        """The first of the rows that are here, in the order of all."""
        if len(self._given) == 1:
            (rows,) = self._given.values()
            return rows[:self._count]
        return sorted(itertools.chain.from_iterable(self._given.values()))[:self._count]

    def rows(self) -> List[KeyedRow]:
        """The rows, once all are here."""
        return list(map(lines_of(self.planned.reading).row, self._best))


def share(count: int, shards: int) -> int:
    """How many of so many rows a shard has that has one in `shards` of all, but for one case in a few hundred."""
    return min(count, math.ceil(count / shards + 3 * math.sqrt(count * (shards - 1)) / shards))


def first_rows(links: Sequence[Link], planned: Sequence[Planned], count: int) -> List[List[KeyedRow]]:
    """The first rows of plans, so many of each at most."""
    rows: List[List[KeyedRow]] = []
    for begin in range(0, len(planned), MOST_PLANS):
        firsts = [First(plan, count) for plan in planned[begin:begin + MOST_PLANS]]
        going = going_on(firsts)
        while going:
            exchange(links, going)
            going = going_on([first for first, _ in going])
        rows += [first.rows() for first in firsts]
    return rows


def going_on(firsts: Sequence[First]) -> List[Tuple[First, List[Ask]]]:
    """Those that want more rows, with what they ask."""
    return [(first, asks) for first, asks in zip(firsts, map(First.asks, firsts)) if asks]


def exchange(links: Sequence[Link], going: Sequence[Tuple[First, List[Ask]]]) -> None:
    """Asks shards, each by one message, and hands rows on to those whose they are."""
    by_shard: Dict[int, Dict[Reading, List[Tuple[First, Ask]]]] = {}
    for first, asks in going:
        for ask in asks:
            by_shard.setdefault(ask.shard, {}).setdefault(first.planned.reading, []).append((first, ask))
    calls = {shard: links[shard].ask("firsts", [sent(reading, some) for reading, some in asked.items()])
             for shard, asked in by_shard.items()}
    for shard, answers in all_of(calls).items():
        for some, answer in zip(by_shard[shard].values(), answers):
            receive(some, answer)


def sent(reading: Reading, some: Sequence[Tuple[First, Ask]]) -> Tuple[Any, ...]:
    """What a shard is asked of plans that are read alike."""
    return reading, [first.planned.plan for first, _ in some], [ask.most for _, ask in some]


def receive(some: Sequence[Tuple[First, Ask]], answer: Firsts) -> None:
    """Hands the rows of plans on."""
    rows = lines_of(some[0][0].planned.reading).came(answer.rows)
    begin = 0
    for (first, ask), count in zip(some, answer.counts):
        first.receive(ask, rows[begin:begin + count])
        begin += count
