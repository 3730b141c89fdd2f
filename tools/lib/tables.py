"""Rows of the program as a table, with a head."""
from __future__ import annotations

import unicodedata
from typing import Optional, Sequence

from frame import Frame
from sand.plan_text import row_form

MOST_WIDE = 60


def head_of(plan: str, fields: int) -> list[str]:
    """Names for the fields of a plan's rows: its gap if there is one, a relation's name for its id, columns."""
    form = row_form(plan)
    names = [*(f"{name} id" for name in form.relations), *(place.column for place in form.places)]
    if fields == len(names) + 1:
        return ["gap", *names]
    return names if fields == len(names) else [""] * fields


def in_metres(gap: str, frame: Frame) -> str:
    over, _, under = gap.partition("/")
    metres = frame.metres(int(over) / int(under or 1))
    return f"{metres:,.0f} m" if metres >= 100 else f"{metres:,.1f} m"


def table(head: Sequence[str], rows: Sequence[Sequence[str]]) -> list[str]:
    """Lines with the fields in columns; numbers stand to the right."""
    cells = [[cut(field) for field in row] for row in rows]
    widths = [max(map(wide, column)) for column in zip(head, *cells)]
    right = [all(is_numeric(row[at]) for row in cells) for at in range(len(head))]
    lines = [line(head, widths, right), "  ".join("-" * width for width in widths)]
    return lines + [line(row, widths, right) for row in cells]


def line(fields: Sequence[str], widths: Sequence[int], right: Sequence[bool]) -> str:
    padded = []
    for field, width, is_right in zip(fields, widths, right):
        blank = " " * (width - wide(field))
        padded.append(blank + field if is_right else field + blank)
    return "  ".join(padded).rstrip()


def is_numeric(field: str) -> bool:
    return field[:1].isdigit() or field[:2].lstrip("-").isdigit() and field[:1] == "-"


def cut(field: str) -> str:
    return field if len(field) <= MOST_WIDE else field[:MOST_WIDE - 2] + ".."


def wide(text: str) -> int:
    """How many columns of a terminal a text takes."""
    if text.isascii():
        return len(text)
    return sum(0 if unicodedata.combining(it) else 2 if unicodedata.east_asian_width(it) in "WF" else 1 for it in text)


class Shown:
    """What is known of the rows that come: the plans of open cursors, and the frame in which gaps are told."""

    def __init__(self) -> None:
        self.frame: Optional[Frame] = None
        self._plans: dict[str, str] = {}

    def follow(self, words: list[str], statement: str) -> None:
        """Remembers the plan of an `open`."""
        if words[0] == "open" and "=" in statement:
            self._plans[words[1]] = statement.partition("=")[2]

    def lines(self, statement: str, answer: list[str]) -> list[str]:
        """The lines of an answer, its rows as a table."""
        rows = [it.split("\t") for it in answer if it[:1].isdigit() and not it.startswith("refused")]
        others = [it for it in answer if not it[:1].isdigit()]
        if not rows:
            return others
        words = statement.split()
        plan = self._plans.get(words[1], "") if words[0] == "next" else statement
        head = ["level", "x", "y", "ids"] if words[0] == "blocks" else head_of(plan, len(rows[0]))
        if self.frame and head[0] == "gap":
            head[0] = "distance"
            rows = [[in_metres(row[0], self.frame), *row[1:]] for row in rows]
        return table(head, rows) + others
