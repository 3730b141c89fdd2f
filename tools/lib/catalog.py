"""What a script has made so far: relations with their columns, indexes, cursors, and the lines that did it."""
from __future__ import annotations

from typing import NamedTuple, Optional

from grammar import tokens


class Relation(NamedTuple):
    """A relation: the line of its `create`, and kinds by column."""
    line: int
    columns: dict[str, str]

    def __str__(self) -> str:
        return ", ".join(f"{name} {kind}" for name, kind in self.columns.items())


class Catalog:
    """Follows the accepted statements of a script."""

    def __init__(self) -> None:
        self.relations: dict[str, Relation] = {}
        # by the statement (`index`, `rtree`), the relation and the column
        self.indexes: dict[tuple[str, str, str], int] = {}
        self.cursors: dict[str, int] = {}
        self.closed: dict[str, int] = {}
        # lines of `create` and `open` that were refused, by the name
        self.refused: dict[tuple[str, str], int] = {}

    def follow(self, number: int, line: str, accepted: bool) -> None:
        """Takes a line of the script in, by its number, once it is answered."""
        words = [token.text for token in tokens(line)]
        if len(words) < 2:
            return
        if not accepted:
            self.refused.setdefault((words[0], words[1]), number)
        elif words[0] == "create":
            inside = words[3:-1]
            columns = {inside[at]: inside[at + 1] for at in range(0, len(inside) - 1, 3)}
            self.relations[words[1]] = Relation(number, columns)
        elif words[0] in ("index", "rtree") and len(words) >= 4:
            self.indexes[words[0], words[1], words[3]] = number
        elif words[0] == "open":
            self.cursors[words[1]] = number
        elif words[0] == "close":
            self.cursors.pop(words[1], None)
            self.closed[words[1]] = number

    def kind(self, relation: str, column: str) -> Optional[str]:
        known = self.relations.get(relation)
        return known.columns.get(column) if known else None
