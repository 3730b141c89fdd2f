"""A refused statement, as an exception."""
from __future__ import annotations


class Refused(Exception):
    """The program refused a statement, and left every relation, id and index as they were.

    `number` and `word` are those of the table of refusals in docs/LANGUAGE.md. `details` are the numbers behind the word:
    the column of a Syntax, the page of a Damaged, record and column of a BadRecord. `given` are the lines that the
    statement had printed before it was refused.
    """

    def __init__(self, number: int, word: str, details: tuple[int, ...], line: str, given: list[str]) -> None:
        super().__init__(number, word, details, line, given)
        self.number = number
        self.word = word
        self.details = details
        self.line = line
        self.given = given

    def __str__(self) -> str:
        shown = self.line if len(self.line) <= 200 else self.line[:197] + "..."
        return f"{' '.join(['refused', str(self.number), self.word, *map(str, self.details)])}: {shown}"

    @classmethod
    def of(cls, answer: str, line: str, given: list[str]) -> Refused:
        """The refusal that a line `refused N WORD ..` tells."""
        _, number, word, *details = answer.split(" ")
        return cls(int(number), word, tuple(map(int, details)), line, given)


def is_refusal(answer: str) -> bool:
    """Whether a line of an answer is a refusal; a row never is, since it begins with a number."""
    return answer.startswith("refused ")
