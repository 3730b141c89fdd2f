"""The Python client, wherever it lies: beside the tools in the repository, or where they are installed."""
from __future__ import annotations

import os
import sys
from pathlib import Path

from tool import Complaint

PAGE = 4096

above = Path(__file__).resolve().parents[2]
sys.path[:0] = [str(place) for place in (above / "clients" / "python", above / "python") if place.is_dir()]


def careful(words: list[str]) -> list[str]:
    """The words for the program, unless they would empty a file that looks like somebody's data."""
    for at, word in enumerate(words):
        name, _, file = word.partition("=")
        if name == "--store":
            file = file or "".join(words[at + 1:at + 2])
            if os.path.isfile(file) and os.path.getsize(file) % PAGE:
                raise Complaint(f"--store empties {file}, which isn't a page file: it is scratch space and no database")
    return words
