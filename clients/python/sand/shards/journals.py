"""A shard's journal: its lock, and what is kept beside it of how the plane is parted and relations are spread."""
from __future__ import annotations

import fcntl
import json
import os
import time
from typing import Any, List, Mapping, NamedTuple, Type

from .regions import Box, Regions, filled
from .spread import Copied, Hash, Region, Relation, Spread

# a program that lost its worker ends when it has carried out the line in hand; so long a new one waits for its journal
PATIENCE = 60.0
SPREADS: Mapping[str, Type[Any]] = {kind.__name__: kind for kind in (Hash, Region, Copied)}


class Catalogue(NamedTuple):
    """The parting of the plane, which tells how many shards there are, the relations, and the name of one that is being made."""
    regions: Regions
    relations: List[Relation]
    making: str = ""

    def has_made(self, name: str) -> bool:
        """Whether a relation is there, made to its end."""
        return name != self.making and any(relation.name == name for relation in self.relations)

    def text(self) -> str:
        """The catalogue as it is kept, in JSON."""
        return json.dumps({
            "bits": self.regions.bits, "boxes": self.regions.boxes, "making": self.making,
            "relations": [[relation.statement, type(relation.spread).__name__, *relation.spread] for relation in self.relations]})

    @classmethod
    def of(cls, text: str) -> Catalogue:
        """The catalogue that was kept."""
        kept = json.loads(text)
        boxes = [[Box(*box) for box in some] for some in kept["boxes"]]
        relations = [Relation.of(statement, spread(word, parts)) for statement, word, *parts in kept["relations"]]
        return cls(filled(kept["bits"], boxes), relations, kept["making"])


def spread(word: str, parts: List[Any]) -> Spread:
    made: Spread = SPREADS[word](*parts)
    return made


def kept_text(journal: str) -> str | None:
    """The text beside a journal, None where neither is there yet."""
    name = journal + ".shards"
    if not os.path.exists(name):
        if os.path.exists(journal):
            raise FileNotFoundError(f"{journal} is there, but {name}, which says how its rows are spread, isn't")
        return None
    with open(name, encoding="utf-8") as file:
        return file.read()


def keep_text(journal: str, text: str) -> None:
    """Puts a text beside a journal, durably, in the place of the one that was there."""
    name = journal + ".shards"
    with open(name + ".new", "w", encoding="utf-8") as file:
        file.write(text)
        file.flush()
        os.fsync(file.fileno())
    os.replace(name + ".new", name)
    folder = os.open(os.path.dirname(name) or ".", os.O_RDONLY)
    try:
        os.fsync(folder)
    finally:
        os.close(folder)


def locked(name: str) -> int:
    """A descriptor that holds the lock of a file, waited for while a program that lost its worker carries out its last line."""
    descriptor = os.open(name, os.O_RDWR | os.O_CREAT, 0o644)
    end = time.monotonic() + PATIENCE
    while True:
        try:
            fcntl.flock(descriptor, fcntl.LOCK_EX | fcntl.LOCK_NB)
            return descriptor
        except BlockingIOError:
            if time.monotonic() > end:
                os.close(descriptor)
                raise BlockingIOError(f"{name} is held by another program") from None
            time.sleep(0.05)
