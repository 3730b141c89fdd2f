"""One shard: an actor on a worker, with a program of its own."""
from __future__ import annotations

import os
import shutil
from typing import Any, List, Sequence

from ..database import Sand
from ..program import ProgramEnded
from ..refusal import Refused
from ..values import Value, literal
from .answering import Answering
from .journals import Catalogue, keep_text, kept_text, locked
from .keys import Keys
from .laying import laid_down, lay_down
from .messages import Answer, Loaded, Setting
from .parts import Piece
from .spread import Homes, Key, Relation

# bytes of statements after which a program is started again over its journal
ENOUGH = 12_000_000


class Shard(Answering):
    """A program and its cursors. `call` gives an `Answer` and raises nothing: what is raised tells of a lost worker."""

    def __init__(self, number: int, setting: Setting) -> None:
        super().__init__()
        self._number = number
        self._setting = setting
        self._lock: int | None = None
        self._journal = setting.journal and os.path.abspath(setting.journal)
        self._failure: Exception | None = None
        try:
            if self._journal:
                self._lock = locked(self._journal + ".lock")
                if kept_text(self._journal) is None:
                    keep_text(self._journal, setting.catalogue)
            self._db = self._started()
        except Exception as failure:
            self._failure = failure
            self._unlock()

    def _started(self) -> Sand:
        setting = self._setting
        options = {**setting.options, "journal": self._journal} if self._journal else setting.options
        kept_open = [] if self._lock is None else [self._lock]
        return Sand(*setting.words, program=setting.program, folder=setting.folder, kept_open=kept_open, **options)

    def _renew(self) -> None:
        """Starts the program again over its journal, since a run doesn't take statements without an end."""
        self._db.close()
        self._db = self._started()
        self._db.answer("stats nobody")

    def call(self, name: str, arguments: Sequence[Any], closing: Sequence[str] = ()) -> Answer:
        """Carries out a call, behind the closing of cursors that nobody holds any more."""
        try:
            if self._failure:
                raise self._failure
            for cursor in closing:
                self.close(cursor)
            if self._journal and self._db.sent > ENOUGH and not self._cursors:
                self._renew()
            return getattr(self, name)(*arguments), None
        except ProgramEnded as ended:
            self._unlock()
            return None, ended
        except Exception as raised:
            return None, raised

    def ready(self) -> None:
        """Raises what the start raised, or that the program has ended."""
        self._db.answer("stats nobody")

    def sent(self) -> int:
        """The bytes of statements that the program has read."""
        return self._db.sent

    def check(self, plan: str) -> None:
        """Raises the refusal of a plan, if it is one that the program refuses."""
        self._db.rows(plan).close()

    def create(self, relation: Relation, catalogue: Catalogue) -> None:
        """Makes a relation; the catalogue says so before, so that the journal has none of which it doesn't tell."""
        before = kept_text(self._journal) if self._journal else None
        self._keep(catalogue._replace(making=relation.name).text())
        try:
            self.ask(relation.statement)
        except Refused:
            self._keep(before or "")
            raise
        self._keep(catalogue.text())
        self._keys[relation.name] = Keys(relation.kind(relation.spread.key))

    def _keep(self, catalogue: str) -> None:
        if self._journal:
            keep_text(self._journal, catalogue)

    def ask(self, line: str) -> List[str]:
        """The lines that a statement prints."""
        self._changes += 1
        return self._db.ask(line)

    def know(self, relation: Relation, homes: Homes) -> None:
        """Knows the keys of a relation from now on, also those that its journal had."""
        keys = self._keys[relation.name] = Keys(relation.kind(relation.spread.key))
        columns = [column for column, _ in relation.columns] if relation.has_copies else [relation.spread.key]
        try:
            rows = self._db.rows(f"fetch (scan {relation.name}) {', '.join(f'1.{column}' for column in columns)}")
        except Refused as refused:
            if refused.word != "UnknownRelation":
                raise
            self._make_up(relation)
            return
        for row in rows:
            keys.skip_to(row.ids[0] - 1)
            if relation.has_copies:
                key = homes.key(row.values)
                keys.add(key, homes.shards(key, row.values)[0] == self._number)
            else:
                keys.add(homes.key_of(row.values[0]))

    def _make_up(self, relation: Relation) -> None:
        """Makes a relation that other shards have, where its making was broken off before it came here."""
        kept = Catalogue.of(kept_text(self._journal) or "") if self._journal else None
        if kept is None or kept.has_made(relation.name):
            raise LookupError(f"the journal {self._journal} of shard {self._number} has lost the relation {relation.name}")
        relations = [other for other in kept.relations if other.name != relation.name]
        self.create(relation, Catalogue(kept.regions, [*relations, relation]))

    def insert(self, relation: str, values: Sequence[Value], key: Key, is_home: bool) -> int:
        """Adds a row; its id here."""
        self._changes += 1
        number = self._db.insert(relation, *values)
        self._keys[relation].skip_to(number - 1)
        self._keys[relation].add(key, is_home)
        return number

    def put(self, relation: str, pieces: Sequence[Piece]) -> Loaded:
        """Adds the rows of pieces."""
        return self.load(relation, lay_down(pieces))

    def load(self, relation: str, folder: str) -> Loaded:
        """Adds the rows that were laid down in a folder here, which is removed."""
        self._changes += 1
        count = own = 0
        try:
            for file in laid_down(folder):
                try:
                    self._db.tell(f"load {relation} {literal(file.name)}")
                except Refused as refusal:
                    return Loaded(count, own, file.refused(refusal))
                self._keys[relation].extend(file.keys, file.copies)
                count += len(file.keys)
                own += file.copies.count(0)
        finally:
            shutil.rmtree(folder, ignore_errors=True)
        return Loaded(count, own, None)

    def delete(self, relation: str, key: Key) -> int:
        """Deletes the rows with the key; how many."""
        self._changes += 1
        keys = self._keys[relation]
        numbers = list(keys.numbers(key))
        for number in numbers:
            self._db.tell(f"delete {relation} {number}")
            keys.delete(number)
        return len(numbers)

    def end(self) -> int | None:
        """Ends the program; its status."""
        status = self._db.close()
        self._unlock()
        return status

    def _unlock(self) -> None:
        if self._lock is not None:
            os.close(self._lock)
            self._lock = None
