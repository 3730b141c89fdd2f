"""What a shard is told and asked, and what it answers."""
from __future__ import annotations

from typing import Any, Dict, List, NamedTuple, Tuple, Union

from ..refusal import Refused
from .rows import Printed, Reading

# an answer: a value, or what was raised
Answer = Tuple[Any, Union[Exception, None]]


class Setting(NamedTuple):
    """How a shard's program is started: the words of its command line, the program, its folder, and its journal.

    `catalogue` is put beside a journal that isn't there yet.
    """
    words: Tuple[str, ...]
    options: Dict[str, Any]
    program: str | None
    folder: str | None
    journal: str | None
    catalogue: str = ""


class Asking(NamedTuple):
    """A plan as a shard is asked it, how its rows are read, and how many the program is asked for at once at most."""
    plan: str
    reading: Reading
    most: int


class Changed(Exception):
    """The relations have changed since rows were first asked of a `far`, which is no cursor and can't go on."""


class Pulled(NamedTuple):
    """Rows that were pulled, whether they were the last, and how many rows the program has given the cursor so far."""
    rows: Printed
    is_last: bool
    asked: int


class Firsts(NamedTuple):
    """The first rows of plans, all in one, and how many each plan has of them."""
    rows: Printed
    counts: List[int]


class Loaded(NamedTuple):
    """How many rows came in, how many of them are no copies, and the refusal that kept the rest out, if any did."""
    rows: int
    own: int
    refusal: Refused | None
