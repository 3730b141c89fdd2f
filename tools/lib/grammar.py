"""Tokens of a line, and what may stand at a place of it, by asking the program.

A second program is asked, which has no relations, so nothing of a script is carried out twice. A token is tried behind the
beginning of the line and before `. .`, which is in no line: where the program finds the fault farther right than the token,
the token may stand there. So this knows words to try, and no grammar.
"""
from __future__ import annotations

import re
from typing import Callable, NamedTuple, Optional

STATEMENTS = "create insert delete load index rtree open next close show stats blocks".split()
PLANS = "scan rank near far window pick join semi knn filter match fetch first sort".split()
KINDS = "int text point segment polygon".split()
OTHERS = "header from within where and by".split()
WORDS = [*dict.fromkeys([*STATEMENTS, *PLANS, *KINDS, *OTHERS])]
SYMBOLS = "( ) , . - = != < <= > >=".split()
TOKEN = re.compile(r'[A-Za-z_]\w*|-?\d+|"(?:[^"]|"")*"?|!=|<=|>=|[^\s]', re.ASCII)
NOBODY = "nobody_calls_it_so"
END = "the line's end"

Answer = Callable[[str], "list[str]"]


class Token(NamedTuple):
    """A token of a line, and the place of its first character, from 0."""
    text: str
    at: int

    @property
    def is_name(self) -> bool:
        return self.text[0].isalpha() or self.text[0] == "_"

    @property
    def is_number(self) -> bool:
        return self.text.lstrip("-").isdigit()


def tokens(line: str) -> list[Token]:
    """The tokens of a line; a character that begins none stands for itself."""
    return [Token(found[0], found.start()) for found in TOKEN.finditer(line)]


def syntax_column(answer: list[str]) -> Optional[int]:
    """The column that an answer tells, None where the line is of the grammar."""
    words = answer[-1].split(" ") if answer else []
    return int(words[3]) if words[:3] == ["refused", "6", "Syntax"] else None


class Grammar:
    """The program's grammar, by questions."""

    def __init__(self, ask: Answer) -> None:
        self._ask = ask

    def may_stand(self, before: str) -> list[str]:
        """What may stand behind the beginning of a line, in words; nothing where it begins no line."""
        if self._fault(before) is not None:
            return []
        found = [said for said, token in (("a name", NOBODY), ("a number", "1"), ("a text", '"x"')) if self._stands(before, token)]
        if "a name" not in found:
            found += [word for word in WORDS if self._stands(before, word)]
        found += [symbol for symbol in SYMBOLS if self._stands(before, symbol)]
        if before.strip() and syntax_column(self._ask(before)) is None:
            found.append(END)
        return found

    def stands(self, before: str, token: str) -> bool:
        """Whether a token may stand behind the beginning of a line."""
        return self._fault(before) is None and self._stands(before, token)

    def _stands(self, before: str, token: str) -> bool:
        column = syntax_column(self._ask(f"{before} {token} . ."))
        return column is not None and column > len(before.encode()) + 1 + len(token.encode())

    def _fault(self, before: str) -> Optional[int]:
        """The column of the first fault in the beginning of a line; None where it begins one."""
        column = syntax_column(self._ask(f"{before} . ."))
        return None if column is None or column > len(before.encode()) else column

    def earlier_fault(self, before: str) -> Optional[int]:
        """The column at which the beginning of a line is no beginning of any, if there is one."""
        return self._fault(before)

    def answers_range(self, line: str) -> bool:
        """Whether a number or a length of a line is out of its range."""
        return self._ask(line)[-1].startswith("refused 7 ")

    def bounds(self, before: str, behind: str) -> tuple[Optional[int], Optional[int]]:
        """The least and the greatest number that is in its range between two pieces of a line where 1 is."""
        def fits(number: int) -> bool:
            return not self.answers_range(f"{before}{number}{behind}")
        return -far_end(lambda number: fits(-number), -1), far_end(fits, 1)


def far_end(fits: Callable[[int], bool], start: int) -> int:
    """The greatest number that fits, where those from the start up to it do and none behind it."""
    low, step = start, 1
    while step < 1 << 70 and fits(low + step):
        low, step = low + step, 2 * step
    while step:
        if fits(low + step):
            low += step
        step //= 2
    return low
