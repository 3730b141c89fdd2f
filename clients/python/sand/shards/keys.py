"""The keys of a relation's rows in one shard, by their ids."""
from __future__ import annotations

from array import array
from operator import lt
from typing import Iterable, Iterator, List, MutableSequence, Sequence, cast

from .spread import Key


class Keys:
    """The key of each id that a shard gave out, also of deleted rows, since open cursors may show them.

    An int takes 8 bytes, a text what Python takes for it. `ascending` tells whether keys only grew with their ids: then rows
    that come by id come by key.
    """

    def __init__(self, kind: str) -> None:
        self._is_number = kind == "int"
        self._keys = cast("MutableSequence[Key]", array("q") if self._is_number else [])
        self._copies: set[int] = set()
        self._deleted: set[int] = set()
        self.ascending = True

    def __len__(self) -> int:
        return len(self._keys)

    def __getitem__(self, number: int) -> Key:
        return self._keys[number - 1]

    def of(self, numbers: Iterable[int]) -> List[Key]:
        """The keys of ids."""
        keys = self._keys
        return [keys[number - 1] for number in numbers]

    def add(self, key: Key, is_home: bool = True) -> None:
        """The key of the next id; `is_home` tells whether the row's home is this shard."""
        if self._keys and not self._keys[-1] < key:  # type: ignore[operator]
            self.ascending = False
        self._keys.append(key)
        if not is_home:
            self._copies.add(len(self._keys))

    def extend(self, keys: Sequence[Key], copies: bytes) -> None:
        """The keys of the next ids, and a byte for each, 1 where the row is a copy of one whose home is another shard."""
        begin = len(self._keys)
        self._keys.extend(keys)
        if self.ascending:
            self.ascending = all(map(lt, self._keys[begin - 1:], keys) if begin else map(lt, keys, keys[1:]))
        if 1 in copies:
            self._copies.update(number for number, is_copy in enumerate(copies, begin + 1) if is_copy)

    def skip_to(self, number: int) -> None:
        """Ids up to a number that were given out and deleted before anybody looked: their keys are never asked for."""
        while len(self._keys) < number:
            self._deleted.add(len(self._keys) + 1)
            self._keys.append(self._keys[-1] if self._keys else 0 if self._is_number else "")

    def is_home(self, number: int) -> bool:
        return number not in self._copies

    def numbers(self, key: Key) -> Iterator[int]:
        """The ids of a key's rows, those that are deleted left out."""
        at = 0
        while True:
            try:
                at = self._keys.index(key, at) + 1
            except ValueError:
                return
            if at not in self._deleted:
                yield at

    def delete(self, number: int) -> None:
        self._deleted.add(number)
