"""Plans as shards are asked them: which shards, from which places on, and how their lines are read.

Plans that differ in the point from which they search alone are read once.
"""
from __future__ import annotations

import re
from typing import Dict, List, Mapping, NamedTuple, Tuple

from .placing import Start, by_squares, decides, everywhere, near
from .plans import Form, NoPlan, Search, form
from .regions import Box, Regions
from .rows import Reading
from .spread import Hash, Homes, Relation

# a plan with the point from which it searches; those with texts are left out, since such words may stand there
FROM_POINT = re.compile(r'([^"]*? from )\((\d{1,9}) (\d{1,9})\)(?![ \t]*-)([^"]*)', re.ASCII)
# the point that stands for any
ANY_POINT = "(0 0)"
# so many kinds of plans are remembered
MOST_KINDS = 1000


class Planned(NamedTuple):
    """A plan as shards are asked it, without its limit; `is_even` tells whether its rows are spread by a hash."""
    plan: str
    reading: Reading
    limit: int | None
    starts: List[Start]
    is_even: bool


class Kind(NamedTuple):
    """What is the same of plans that differ in a point alone.

    `text` is the plan before and behind that point. `starts` is None where the squares of shards tell them; it is empty where
    each shard has all rows, so that one in turn is asked.
    """
    text: Tuple[str, str]
    form: Form
    reading: Reading
    starts: List[Start] | None
    is_even: bool


class Planner:
    """The relations of shards, where their rows go, and the kinds of plans that were asked."""

    def __init__(self, regions: Regions, count: int) -> None:
        self.relations: Dict[str, Relation] = {}
        self.homes: Dict[str, Homes] = {}
        self._regions = regions
        self._count = count
        self._kinds: Dict[Tuple[str, str], Kind | None] = {}
        self._turns = 0

    def add(self, relation: Relation) -> None:
        self.relations[relation.name] = relation
        self.homes[relation.name] = Homes(relation, self._count, self._regions)

    def planned(self, plan: str) -> Planned:
        """A plan as it is asked; `NoPlan` where it is none over relations that are here, `NotSpread` where shards can't give it."""
        found = FROM_POINT.fullmatch(plan)
        known = self._known(found[1], found[4]) if found else None
        if known and found:
            x, y = int(found[2]), int(found[3])
            return self._asked(known, f"{known.text[0]}({x} {y}){known.text[1]}", Box(x, y, x, y))
        kind = self._read(plan)
        return self._asked(kind, kind.form.with_order, goal(kind.form))

    def _known(self, before: str, behind: str) -> Kind | None:
        """The kind of plans that have these texts round a point; None where they are of no kind."""
        if (before, behind) not in self._kinds:
            if len(self._kinds) >= MOST_KINDS:
                self._kinds.clear()
            kind = self._read(f"{before}{ANY_POINT}{behind}")
            text = kind.form.with_order.split(ANY_POINT)
            is_one = len(text) == 2 and goal(kind.form) in (None, Box(0, 0, 0, 0))
            self._kinds[before, behind] = kind._replace(text=(text[0], text[1])) if is_one else None
        return self._kinds[before, behind]

    def _asked(self, kind: Kind, plan: str, goal: Box | None) -> Planned:
        starts, search = kind.starts, kind.form.search
        if starts is None and goal and isinstance(search, Search):
            starts = near(self._regions, goal, search.within)
        if not starts:
            # each shard has all rows, or the goal isn't in the plane, which a program tells
            self._turns += 1
            starts = [((), self._turns % self._count)]
        return Planned(plan, kind.reading, kind.form.limit, starts, kind.is_even)

    def _read(self, plan: str) -> Kind:
        found = form(plan)
        if not all(relation in self.relations for relation in found.relations):
            raise NoPlan
        deciding = decides(found, self.relations)
        decider = self.relations[found.relations[deciding - 1]]
        starts: List[Start] | None = []
        if deciding:
            starts = None if by_squares(found, self.relations) else everywhere(found, self.relations, self.homes, self._count)
        reading = Reading(found.has_gap, found.relations, kinds(found, self.relations), found.order,
                          deciding if decider.has_copies else 0)
        return Kind(("", ""), found, reading, starts, bool(deciding) and isinstance(decider.spread, Hash))


def goal(found: Form) -> Box | None:
    """The rectangle round what a plan searches from, if it does."""
    return found.search.goal if isinstance(found.search, Search) else None


def kinds(found: Form, relations: Mapping[str, Relation]) -> Tuple[str, ...]:
    """The kinds of a plan's values; that of a column that isn't there, which the program refuses, is empty."""
    numbered = dict(enumerate(found.relations, 1))
    return tuple(relations[numbered[place.number]].kind(place.column) if place.number in numbered else "" for place in found.values)
