"""Values as the program takes them in a data file, and the script that takes the file in."""
from __future__ import annotations

import re
from typing import NamedTuple, Optional

MOST_TEXT = 255
MOST_COLUMNS = 12
MOST_NAME = 32
MOST_ROWS = 1_000_000
CONTROL = re.compile(r"[\x00-\x1f\x7f-\x9f]")
WHOLE = re.compile(r"-?\d{1,19}", re.ASCII)
NOT_NAME = re.compile(r"\W", re.ASCII)
MOST_INT = 2 ** 63


class Cleaner:
    """Makes texts the program's: no control characters, no blanks at their ends, 255 bytes at most. It counts what it cut."""

    def __init__(self) -> None:
        self.cut = 0

    def __call__(self, text: str) -> str:
        text = text.strip() if text.isprintable() else CONTROL.sub(" ", text).strip()
        if len(text) <= MOST_TEXT // 4:
            return text
        short = text.encode()[:MOST_TEXT].decode(errors="ignore")
        if len(short) < len(text):
            self.cut += 1
        return short


def is_whole(text: str) -> bool:
    """Whether a text is an int of the program."""
    if text.isdecimal() and text.isascii() and len(text) < 19:
        return True
    return WHOLE.fullmatch(text) is not None and -MOST_INT <= int(text) < MOST_INT


class Column(NamedTuple):
    """A column that a word names: [NAME=]WHERE[:int], WHERE being a name of the header or a number from 1."""
    name: str
    where: str
    is_int: bool

    @classmethod
    def read(cls, word: str) -> Column:
        word, is_int = (word[:-4], True) if word.endswith(":int") else (word, False)
        name, given, where = word.partition("=")
        where = where if given else name
        return cls(column_name(name), where, is_int)


def column_name(text: str) -> str:
    """A text as a name of the program: letters, digits and `_`, no digit in front, 32 at most."""
    name = NOT_NAME.sub("_", text.strip()) or "_"
    return (name if not name[0].isdigit() else f"c{name}")[:MOST_NAME]


def distinct(names: list[str]) -> list[str]:
    """The names, with a number behind those that stand there already."""
    taken: list[str] = []
    for name in names:
        free, number = name, 2
        while free in taken:
            free, number = f"{name[:MOST_NAME - 4]}_{number}", number + 1
        taken.append(free)
    return taken


def loading(relation: str, columns: list[tuple[str, str]], file: str, indexed: Optional[str]) -> str:
    """The script that makes a relation, loads a file with a header into it, and indexes a column."""
    quoted = file.replace('"', '""')
    kinds = ", ".join(f"{name} {kind}" for name, kind in columns)
    script = f'create {relation} ({kinds})\nload {relation} "{quoted}" header\n'
    return script + (f"index {relation}.{indexed}\n" if indexed else "")
