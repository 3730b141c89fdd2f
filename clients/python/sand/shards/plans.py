"""What a plan's text tells of its answer over shards: by what its rows come, and how it searches.

Unlike `plan_text`, which reads the rows of any plan, this knows each operator by its name, since each has its own order.
"""
from __future__ import annotations

from typing import List, NamedTuple, Tuple, Union

from ..plan_text import TOKEN, is_name
from .errors import NotSpread
from .regions import WIDTH, Box

Column = Tuple[str, str]


class Gap(NamedTuple):
    """Rows come by their gap; `sign` is -1 where the greatest comes first."""
    sign: int = 1


class Place(NamedTuple):
    """Rows come by the int in a column of the relation of a row's id, counted from 1."""
    number: int
    column: str


Part = Union[Gap, Place]


class Search(NamedTuple):
    """A search of one relation: its column, the rectangle round its goal, and the steps to which it goes, if it says so."""
    word: str
    column: Column
    goal: Box
    within: int | None


class Pick(NamedTuple):
    """The rows that have a value in a column."""
    column: Column
    value: int | str


class Pairing(NamedTuple):
    """Two relations whose rows are paired; `number` is that of the left id."""
    word: str
    number: int
    left: Column
    right: Column
    within: int | None


class Form(NamedTuple):
    """The form of a plan's answer.

    `relations` are those of a row's ids, `values` the places that are fetched. Rows come by the parts of `order`, then by their
    keys. `limit` is how many there are at most, where the plan says so; `search` is where rows without a sort come from,
    `pairings` what is paired. `plan` is the plan without its limit: the first rows by key aren't those of each shard. `has_gap`
    tells whether a row begins with its gap.
    """
    relations: Tuple[str, ...]
    order: Tuple[Part, ...]
    limit: int | None = None
    search: Search | Pick | None = None
    pairings: Tuple[Pairing, ...] = ()
    plan: str = ""
    values: Tuple[Place, ...] = ()
    has_gap: bool = True

    @property
    def with_order(self) -> str:
        """The plan with the ints that its rows come by behind their values."""
        places = [f"{part.number}.{part.column}" for part in self.order if isinstance(part, Place)]
        return f"fetch ({self.plan}) {', '.join(places)}" if places else self.plan


class NoPlan(Exception):
    """The text is no plan that is known here; the program says what is wrong with it, where something is."""


def form(plan: str) -> Form:
    """The form of a plan's answer; `NoPlan`, or `NotSpread` where shards can't give it."""
    reader = Reader(plan)
    found = reader.plan()
    if reader.token():
        raise NoPlan
    return found._replace(plan=reader.unlimited())


class Reader:
    """Reads a plan token by token."""

    def __init__(self, plan: str) -> None:
        self._plan = plan
        self._found = list(TOKEN.finditer(plan))
        self._tokens: List[str] = [found[0] for found in self._found]
        self._at = 0
        # the tokens of each `first`, which a shard isn't asked
        self._limits: set[int] = set()

    def unlimited(self) -> str:
        """The plan without each `first`."""
        parts, end = [], 0
        for at, found in enumerate(self._found):
            parts.append(self._plan[end:found.start() if at in self._limits else found.end()])
            end = found.end()
        return "".join(parts).strip()

    def token(self) -> str:
        """The token in hand, empty behind the last."""
        return self._tokens[self._at] if self._at < len(self._tokens) else ""

    def take(self, *expected: str) -> str:
        """Passes over the token in hand, which is one of those expected, if any are told."""
        token = self.token()
        if not token or expected and token not in expected:
            raise NoPlan
        self._at += 1
        return token

    def name(self) -> str:
        token = self.take()
        if not is_name(token):
            raise NoPlan
        return token

    def number(self) -> int:
        token = self.take()
        if not is_number(token):
            raise NoPlan
        return int(token)

    def column(self) -> Column:
        name = self.name()
        self.take(".")
        return name, self.name()

    def place(self) -> Place:
        number = self.number()
        self.take(".")
        return Place(number, self.name())

    def within(self) -> int | None:
        if self.token() != "within":
            return None
        self.take()
        return self.number()

    def shape(self) -> Box:
        """The rectangle round a shape."""
        numbers: list[int] = []
        depth = 0
        token = ""
        while depth or not numbers or token == "-" or self.token() == "-":
            token = self.take()
            if token == "(":
                depth += 1
            elif token == ")" and depth:
                depth -= 1
            elif token != "-":
                self._at -= 1
                numbers.append(self.number())
        if len(numbers) % 2:
            raise NoPlan
        return Box.round(list(zip(numbers[::2], numbers[1::2])))

    def inner(self) -> Form:
        """The plan in parentheses below an operator; a `far`, which is a statement, stands below none."""
        self.take("(")
        if self.token() == "far":
            raise NoPlan
        found = self.plan()
        self.take(")")
        return found

    def plan(self) -> Form:
        read = getattr(self, f"read_{self.name()}", None)
        if read is None:
            raise NoPlan
        found: Form = read()
        return found

    def read_scan(self) -> Form:
        return Form((self.name(),), (), has_gap=False)

    def search_from(self, word: str, sign: int = 1) -> Form:
        column = self.column()
        self.take("from")
        goal = self.shape()
        return Form((column[0],), (Gap(sign),), search=Search(word, column, goal, self.within()))

    def read_rank(self) -> Form:
        return self.search_from("rank")

    def read_near(self) -> Form:
        return self.search_from("near")

    def read_far(self) -> Form:
        return self.search_from("far", -1)

    def read_window(self) -> Form:
        column = self.column()
        left, low, right, high = (self.number() for _ in range(4))
        if not (0 <= left <= right < WIDTH and 0 <= low <= high < WIDTH):
            raise NoPlan
        return Form((column[0],), (Gap(),), search=Search("window", column, Box(left, low, right, high), 0))

    def read_pick(self) -> Form:
        relation, column = self.column()
        if self.take("=", "from") == "=":
            token = self.take()
            value = token[1:-1].replace('""', '"') if token.startswith('"') else int(token) if is_number(token) else None
            if value is None:
                raise NoPlan
            return Form((relation,), (), search=Pick((relation, column), value), has_gap=False)
        self.number()
        self.take("to")
        self.number()
        return Form((relation,), (Place(1, column),), has_gap=False)

    def paired(self, word: str) -> Form:
        left, right = self.column(), self.column()
        pairing = Pairing(word, 1, left, right, self.within())
        return Form((left[0], right[0]), (Gap(),), pairings=(pairing,))

    def read_join(self) -> Form:
        return self.paired("join")

    def read_semi(self) -> Form:
        return self.paired("semi")

    def read_knn(self) -> Form:
        self.number()
        return self.paired("knn")

    def read_filter(self) -> Form:
        below = no_limit("filter", self.inner())
        self.take("where")
        self.take()
        while self.token() not in ("", ")"):
            self.take()
        return below

    def read_match(self) -> Form:
        below = no_limit("match", self.inner())
        place = self.place()
        self.take("=")
        right = self.column()
        if not 1 <= place.number <= len(below.relations):
            raise NoPlan
        left = below.relations[place.number - 1], place.column
        pairing = Pairing("match", place.number, left, right, None)
        return below._replace(relations=(*below.relations, right[0]), pairings=(*below.pairings, pairing))

    def read_fetch(self) -> Form:
        below = self.inner()
        places = [self.place()]
        while self.token() == ",":
            self.take()
            places.append(self.place())
        return below._replace(values=(*below.values, *places))

    def read_first(self) -> Form:
        begin = self._at - 1
        count = self.number()
        below = self.inner()
        self._limits.update((begin, begin + 1, begin + 2, self._at - 1))
        return below._replace(limit=count if below.limit is None else min(count, below.limit))

    def read_sort(self) -> Form:
        below = no_limit("sort", self.inner())
        if self.take("by", "near") == "by":
            return below._replace(order=(self.place(), *below.order), search=None)
        self.place()
        self.take("from")
        self.shape()
        if isinstance(below.search, Search) and below.search.word == "window":
            below = below._replace(order=())
        if any(isinstance(part, Gap) for part in below.order):
            raise NotSpread("a `sort near` over rows that have a gap: what they came by is gone from the row")
        return below._replace(order=(Gap(), *below.order), search=None, has_gap=True)


def is_number(token: str) -> bool:
    return token.lstrip("-").isdigit()


def no_limit(word: str, below: Form) -> Form:
    """A form on which an operator may stand: the first n rows of all shards are no shard's own."""
    if below.limit is not None:
        raise NotSpread(f"a `first` below a `{word}`: each shard would give its own first rows")
    return below
