"""A database: the program, asked by statements."""
from __future__ import annotations

import csv
import os
import tempfile
from collections import deque
from typing import Any, Iterable, Iterator, Sequence, Tuple

from .cursor import MOST_AT_ONCE, Cursor, RowReader
from .plan_text import Place
from .program import Program, find_program
from .refusal import Refused, is_refusal
from .values import Row, Value, field, literal

# a plan with more operators than any may have is refused behind its checks, so nothing of it is carried out
TOO_DEEP = 40


class Sand:
    """A run of the program, ended by `close` or at the end of a `with`.

    `program` is its file (else `SAND` of the environment, the repository's program or the one on the path) and `folder`
    the one from which it is started and names data files. Every other word is an option of its command line:
    `Sand(frames=64)` starts it with `--frames 64`. `store="FILE"` EMPTIES that file: it is scratch space and no database.
    The descriptors of `kept_open` stay open in the program until it ends.
    """

    def __init__(self, *words: str, program: str | os.PathLike[str] | None = None,
                 folder: str | os.PathLike[str] | None = None, kept_open: Sequence[int] = (), **options: Any) -> None:
        named = [word for name, value in options.items() for word in (f"--{name.replace('_', '-')}", str(value))]
        self._program = Program([find_program(program), *words, *named], folder, kept_open)
        self._kinds: dict[Place, str] = {}
        self._cursors = 0
        self._abandoned: deque[str] = deque()

    def __enter__(self) -> Sand:
        return self

    def __exit__(self, *_: object) -> None:
        self.close()

    def close(self) -> int | None:
        """Ends the run; the program's status. A second time does nothing."""
        return self._program.close()

    @property
    def sent(self) -> int:
        """The bytes of statements so far, of which a run takes 16,777,216."""
        return self._program.sent

    def answer(self, line: str) -> list[str]:
        """The lines that a statement prints, a refusal as the last of them; it raises none."""
        self._close_abandoned()
        return self._program.answer(line)

    def _close_abandoned(self) -> None:
        while self._abandoned:
            self._program.answer(f"close {self._abandoned.popleft()}")

    def ask(self, line: str) -> list[str]:
        """The lines that a statement prints; `Refused` where it is refused."""
        lines = self.answer(line)
        if lines and is_refusal(lines[-1]):
            raise Refused.of(lines[-1], line, lines[:-1])
        return lines

    def shown(self, asked: Sequence[Tuple[str, int]]) -> list[list[str]]:
        """The lines of the first rows of plans, so many of each at most and without `end`, asked together."""
        self._close_abandoned()
        lines = [f"show {count} {plan}" for plan, count in asked]
        answers = self._program.answers([(line, count) for line, (_, count) in zip(lines, asked)])
        for line, answer in zip(lines, answers):
            if is_refusal(answer[-1]):
                raise Refused.of(answer[-1], line, answer[:-1])
            if answer[-1] == "end":
                answer.pop()
        return answers

    def tell(self, line: str) -> int | None:
        """Carries out a statement that prints one line: the number of an `id N` or a `loaded N`, else None."""
        lines = self.ask(line)
        number = lines[-1].rpartition(" ")[2] if lines else ""
        return int(number) if number.isdigit() else None

    def insert(self, relation: str, *values: Value) -> int:
        """Adds a row; its id."""
        number = self.tell(f"insert {relation} {', '.join(map(literal, values))}")
        assert number is not None
        return number

    def load(self, relation: str, rows: Iterable[Sequence[Value]]) -> int:
        """Adds a row for each of the iterable's, all or none; how many. They go by a data file, which is removed again.

        The record of a BadRecord is the row's number, counted from 1.
        """
        with tempfile.TemporaryDirectory(prefix="sand-") as folder:
            name = os.path.join(folder, "rows.csv")
            with open(name, "w", encoding="utf-8", newline="") as file:
                csv.writer(file, lineterminator="\n").writerows(map(fields, rows))
            number = self.tell(f"load {relation} {literal(name)}")
        assert number is not None
        return number

    def rows(self, plan: str, most: int = MOST_AT_ONCE) -> Cursor:
        """The rows of a plan, pulled as they are asked for, up to `most` ahead of who asks."""
        self._cursors += 1
        return Cursor(self, f"_py_{self._cursors}", plan, most)

    def first(self, count: int, plan: str) -> list[Row]:
        """The first rows of a plan, so many at most, by one statement and without a cursor."""
        reader = RowReader(self, plan)
        lines = self.ask(f"show {count} {plan}")
        return [reader.read(line) for line in lines[:len(lines) - (lines[-1] == "end")]]

    def kind_of(self, place: Place) -> str:
        """`int`, `text` or `shape`: the kind of a column, which the checks of a plan tell without carrying it out."""
        if place not in self._kinds:
            self._kinds[place] = self._asked_kind(place)
        return self._kinds[place]

    def _asked_kind(self, place: Place) -> str:
        for kind, value in (("int", "0"), ("text", '""')):
            plan = f"filter (scan {place.relation}) where 1.{place.column} = {value}"
            deep = "first 1 (" * TOO_DEEP + plan + ")" * TOO_DEEP
            answer = self.answer(f"show 1 {deep}")[-1]
            if not answer.startswith("refused 10 "):
                return kind if answer.startswith("refused 25 ") else "text"
        return "shape"

    def close_cursor(self, name: str) -> None:
        """Closes a cursor, or does nothing where the program has ended."""
        if not self._program.has_ended:
            self.ask(f"close {name}")

    def close_later(self, name: str) -> None:
        """Closes a cursor before the next statement."""
        self._abandoned.append(name)


def fields(row: Sequence[Value]) -> Iterator[str]:
    if isinstance(row, str):
        raise TypeError(f"a row is a sequence of values, and {row!r} is one text")
    return map(field, row)
