"""Which shards a plan is asked of, and whose rows count."""
from __future__ import annotations

from typing import List, Mapping, Tuple

from .errors import NotSpread
from .plans import Form, Pairing, Pick, Search
from .regions import Box, Regions
from .rows import Order
from .spread import Copied, Hash, Homes, Region, Relation

# a place in the order of all before which no row of a shard comes, and the shard
Start = Tuple[Order, int]


def decides(form: Form, relations: Mapping[str, Relation]) -> int:
    """The number of the id whose home gives a row, 0 where each shard has all rows; `NotSpread` where no shard has them."""
    deciding = 0
    if not isinstance(relations[form.relations[0]].spread, Copied):
        deciding = 1
    for right, pairing in enumerate(form.pairings, len(form.relations) - len(form.pairings) + 1):
        other = relations[form.relations[right - 1]]
        if isinstance(other.spread, Copied):
            continue
        if deciding == 0 and pairing.word in ("join", "match"):
            deciding = right
        elif deciding == 0:
            raise NotSpread(f"a `{pairing.word}` with a left relation that is copied and a right one that is spread: each shard "
                            f"would give partners of its own; copy {other.name} or spread {pairing.left[0]}")
        elif deciding == pairing.number and reaches(pairing, relations[pairing.left[0]], other):
            continue
        elif deciding == pairing.number == 1 and pairing.word == "join" and reaches(turned(pairing), other, relations[pairing.left[0]]):
            deciding = right
        else:
            raise NotSpread(f"a `{pairing.word}` of {pairing.left[0]} and {other.name}, which are both spread: copy {other.name} "
                            "(`Copied`), or spread both by `Region`, points on the left, and give a `within` up to the margin of the right")
    return deciding


def reaches(pairing: Pairing, left: Relation, right: Relation) -> bool:
    """Whether each row of the left relation has all its partners in the shard that is its home."""
    return (isinstance(left.spread, Region) and left.spread.column == pairing.left[1] and left.kind(pairing.left[1]) == "point"
            and isinstance(right.spread, Region) and right.spread.column == pairing.right[1]
            and right.spread.margin is not None and pairing.within is not None and pairing.within <= right.spread.margin)


def turned(pairing: Pairing) -> Pairing:
    """A join with its sides changed."""
    return pairing._replace(left=pairing.right, right=pairing.left)


def by_squares(form: Form, relations: Mapping[str, Relation]) -> bool:
    """Whether the squares of shards tell which of them may have rows of an answer, and from which place on."""
    if not isinstance(form.search, Search):
        return False
    relation = relations[form.search.column[0]]
    return (isinstance(relation.spread, Region) and form.search.word != "far" and form.search.column[1] == relation.spread.column
            and relation.kind(form.search.column[1]) == "point")


def everywhere(form: Form, relations: Mapping[str, Relation], homes: Mapping[str, Homes], count: int) -> List[Start]:
    """The shards that may have rows of an answer, where no squares tell it."""
    if isinstance(form.search, Pick):
        relation, column = form.search.column
        if isinstance(relations[relation].spread, Hash) and relations[relation].spread.key == column:
            return [((), shard) for shard in homes[relation].of_key(form.search.value)]
    return [((), shard) for shard in range(count)]


def near(regions: Regions, goal: Box, within: int | None) -> List[Start]:
    """The shards that have squares, or have them so near to a goal, from the gap of these on."""
    most = None if within is None else within * within
    return [((gap,), shard) for shard, gap in enumerate(regions.gaps(goal)) if gap is not None and (most is None or gap <= most)]
