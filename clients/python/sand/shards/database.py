"""A database of shards: relations spread over the programs of many workers, asked as one."""
from __future__ import annotations

import itertools
import os
import secrets
from collections import Counter
from typing import Any, Callable, Dict, Iterable, List, Mapping, Sequence

from ..refusal import Refused
from ..values import Value
from .errors import NotSpread, ShardLost, ShardRefused
from .firsts import first_rows
from .journals import Catalogue, kept_text
from .links import Link, all_of, distributed, started, workers
from .loading import Progress, load_parts
from .merged import Source, SpreadCursor
from .messages import Asking, Loaded, Setting
from .parts import split_rows
from .planning import Planned, Planner
from .plans import NoPlan
from .regions import Regions, quarters
from .rows import KeyedRow
from .spread import Homes, Key, Relation, Spread


class Shards:
    """So many programs on the workers of a `distributed.Client`, and relations spread over them.

    The words and options are those of each program, as of `Sand`; `program` and `folder` are meant on the workers. `journal`
    names a file for each shard, with `{shard}` in the place of its number, on the disk of its worker; where these are there,
    their relations are taken up. `regions` parts the plane for relations that are spread by `Region` (else evenly, or as the
    journals say). Ended by `close`, or at the end of a `with`.
    It may be sent to another client of the same scheduler by `pickle`; that one knows the relations made so far.
    """

    def __init__(self, client: Any, count: int, *words: str, program: str | None = None, folder: str | None = None,
                 journal: str | None = None, regions: Regions | None = None, **options: Any) -> None:
        if journal is not None and "{shard}" not in journal:
            raise ValueError("each shard has a journal of its own: {shard} stands in its name")
        self._client = client
        self._setting = Setting(words, options, program, folder, journal)
        self._begin()
        found = workers(client)
        if not found:
            raise RuntimeError("there is no worker to have a shard")
        homes = [found[number % len(found)] for number in range(count)]
        kept = self._kept(homes)
        self.regions = kept.regions if kept else regions or quarters(count)
        if len(self.regions.boxes) != count:
            raise ValueError(f"the plane is parted among {len(self.regions.boxes)} shards and not {count}")
        self._planner = Planner(self.regions, count)
        self._relations = self._planner.relations
        self._homes = self._planner.homes
        self._links: List[Link] = []
        try:
            for number, worker in enumerate(homes):
                self._links.append(started(client, number, worker, self._set(number)))
            self._all("ready")
            for relation in kept.relations if kept else []:
                self._all("know", relation, Homes(relation, count, self.regions))
                self._planner.add(relation)
        except BaseException:
            self.close()
            raise

    def _kept(self, homes: Sequence[str]) -> Catalogue | None:
        """The catalogue of the journals that are there; ValueError where they aren't those of all shards."""
        if self._setting.journal is None:
            return None
        texts = self._client.gather([
            self._client.submit(kept_text, self._journal(number), workers=[worker], allow_other_workers=False, pure=False)
            for number, worker in enumerate(homes)])
        catalogues = [Catalogue.of(text) for text in texts if text is not None]
        if not catalogues:
            return None
        if None in texts:
            raise ValueError(f"other shards have journals, and shard {texts.index(None)} has none yet")
        if any(catalogue.regions != catalogues[0].regions for catalogue in catalogues):
            raise ValueError("these journals aren't of the same shards")
        # a relation whose making was broken off may stand in some alone
        relations = {relation.name: relation for catalogue in catalogues for relation in catalogue.relations}
        return Catalogue(catalogues[0].regions, list(relations.values()))

    def _begin(self) -> None:
        self._name = secrets.token_hex(6)
        self._cursors = itertools.count(1)

    def _journal(self, number: int) -> str | None:
        """The name of a shard's journal."""
        return self._setting.journal and self._setting.journal.replace("{shard}", str(number))

    def _set(self, number: int) -> Setting:
        return self._setting._replace(journal=self._journal(number),
                                      catalogue=Catalogue(self.regions, list(self._relations.values())).text())

    def __getstate__(self) -> Dict[str, Any]:
        return {name: value for name, value in vars(self).items() if name not in ("_client", "_name", "_cursors")}

    def __setstate__(self, state: Dict[str, Any]) -> None:
        vars(self).update(state, _client=distributed.get_client())
        self._begin()

    def __enter__(self) -> Shards:
        return self

    def __exit__(self, *_: object) -> None:
        self.close()

    def close(self) -> None:
        """Ends all programs."""
        for call in [link.ask("end") for link in self._links]:
            try:
                call.wait()
            except Exception:
                # what is gone has ended, and what didn't start needn't
                pass

    def _all(self, name: str, *arguments: Any) -> Dict[int, Any]:
        return all_of({link.number: link.ask(name, *arguments) for link in self._links})

    def create(self, statement: str, spread: Spread) -> None:
        """Makes a relation, `create cafe (at point, number int)`, spread over the shards."""
        relation = Relation.of(statement, spread)
        if relation.name in self._relations:
            raise Refused(11, "NameTaken", (), statement, [])
        try:
            self._all("create", relation, Catalogue(self.regions, [*self._relations.values(), relation]))
        except ShardLost:
            # where it is started again, the relation is made too
            self._planner.add(relation)
            raise
        self._planner.add(relation)

    def tell(self, line: str) -> None:
        """Carries out an `index` or an `rtree` in all shards."""
        word = line.split(None, 1)[0] if line.strip() else ""
        if word not in ("index", "rtree"):
            raise NotSpread(f"a `{word}` isn't told to all shards: create, insert, load, delete, rows and first are calls")
        self._all("ask", line)

    def insert(self, relation: str, *values: Value) -> List[int]:
        """Adds a row; the shards that have it, its home first."""
        homes = self._known(relation)
        try:
            key = homes.key(values)
            shards = homes.shards(key, values)
        except ValueError:
            raise Refused(10, "WrongKind", (), f"insert {relation}", []) from None
        all_of({shard: self._links[shard].ask("insert", relation, values, key, homes.is_copied or shard == shards[0])
                for shard in shards})
        return shards

    def load(self, relation: str, rows: Iterable[Sequence[Value]]) -> int:
        """Adds a row for each of the iterable's; how many. In each shard all its rows come in, or none."""
        pieces = split_rows(rows, self._known(relation), len(self._links))
        return self._loaded(relation, lambda: all_of({
            link.number: link.ask("put", relation, [piece]) for link, piece in zip(self._links, pieces)}))

    def load_parts(self, relation: str, paths: Sequence[str | os.PathLike[str]], header: bool = False,
                   progress: Callable[[Progress], None] = lambda progress: None) -> int:
        """Adds a row for each record of data files that the workers can read; how many.

        Files are read in parallel, so a few for each worker are best. In each shard the rows of all files come in, or none,
        up to 60,000,000 bytes of them. A bad record is told by its file and number.
        """
        names = [os.fspath(path) for path in paths]
        homes = self._known(relation)
        return self._loaded(relation, lambda: load_parts(self._client, self._links, relation, homes, names, header, progress))

    def _loaded(self, relation: str, load: Callable[[], Mapping[int, Loaded]]) -> int:
        """How many rows a load brought in; where it went wrong, `done` says how many each shard has of it."""
        try:
            loaded = load()
        except ShardLost as lost:
            raise ShardLost(lost.shard, lost.worker, lost.why, brought(lost.done)) from lost
        refusals = {shard: found.refusal for shard, found in loaded.items() if found.refusal}
        if refusals:
            raise ShardRefused(refusals, brought(loaded))
        own = [found.own for found in loaded.values()]
        return max(own, default=0) if self._homes[relation].is_copied else sum(own)

    def delete(self, relation: str, key: Key) -> List[int]:
        """Deletes the rows with the key, copies too; the shards that had one. Refused where there is none."""
        homes = self._known(relation)
        links = [self._links[shard] for shard in homes.of_key(key)] if homes.is_hashed else self._links
        found = all_of({link.number: link.ask("delete", relation, key) for link in links})
        if not any(found.values()):
            raise Refused(15, "NoSuchId", (), f"delete {relation} {key}", [])
        return [shard for shard, count in found.items() if count]

    def rows(self, plan: str, most: int = 1) -> SpreadCursor:
        """The rows of a plan; `far R.c from (X Y)` is taken for one. `most` above 1 lets shards be asked ahead."""
        return self._cursor(plan, most, 0)

    def first(self, count: int, plan: str, most: int = 1) -> List[KeyedRow]:
        """The first rows of a plan, so many at most: no shard is asked that can't have one of them."""
        cursor = self._cursor(plan, most, count)
        rows = cursor.take(count)
        cursor.leave()
        return rows

    def firsts(self, count: int, plans: Sequence[str]) -> List[List[KeyedRow]]:
        """The first rows of each of many plans, so many at most, with few messages to a shard for all of them.

        A shard that may have one of the rows of a plan is asked for so many at once, or for its share where a hash spreads them.
        """
        return first_rows(self._links, [self._planned(plan) for plan in plans], count)

    def _cursor(self, plan: str, most: int, wanted: int) -> SpreadCursor:
        planned = self._planned(plan)
        name = f"{self._name}-{next(self._cursors)}"
        asking = Asking(planned.plan, planned.reading, most)
        return SpreadCursor([Source(self._links[shard], name, asking, floor) for floor, shard in planned.starts], planned.limit, wanted)

    def _planned(self, plan: str) -> Planned:
        """A plan as shards are asked it; what the program says of it where it is none over relations that are here."""
        try:
            return self._planner.planned(plan)
        except NoPlan:
            self._links[0].ask("check", plan).wait()
        raise NotSpread(f"what the program makes of this plan isn't known for shards: {plan}")

    def _known(self, relation: str) -> Homes:
        if relation not in self._homes:
            raise Refused(8, "UnknownRelation", (), relation, [])
        return self._homes[relation]

    def restart(self) -> List[int]:
        """Starts lost shards again over their journals, on workers where these can be read and written; their numbers.

        `ShardLost` where there is no such worker, or no journal. Of a change in hand at the end the journal may have it or not.
        """
        lost = {}
        for number, call in [(link.number, link.ask("ready")) for link in self._links]:
            try:
                call.wait()
            except ShardLost as caught:
                lost[number] = caught
        for number, loss in lost.items():
            self._links[number] = restarted(self._client, self._links, loss, self._set(number))
            for name, relation in self._relations.items():
                self._links[number].ask("know", relation, self._homes[name]).wait()
        return list(lost)


def brought(loaded: Mapping[int, Loaded]) -> Dict[int, int]:
    """How many rows came in, of the shards that have any."""
    return {shard: found.rows for shard, found in loaded.items() if found.rows}


def restarted(client: Any, links: Sequence[Link], lost: ShardLost, setting: Setting) -> Link:
    """A lost shard, started on the worker with the fewest shards of those that can read its journal."""
    if setting.journal is None:
        raise ShardLost(lost.shard, lost.worker, f"{lost.why}; it has no journal from which it could start again")
    able = [address for address, is_able in client.run(can_use, setting.journal, on_error="return").items() if is_able is True]
    if not able:
        raise ShardLost(lost.shard, lost.worker, f"{lost.why}; its journal {setting.journal} can be read on no worker that is there")
    shards = Counter(link.worker for link in links if link.number != lost.shard)
    link = started(client, lost.shard, min(able, key=lambda address: (shards[address], address)), setting)
    link.ask("ready").wait()
    return link


def can_use(journal: str) -> bool:
    """Whether a journal is there, to be read and written."""
    return os.path.isfile(journal) and os.access(journal, os.R_OK | os.W_OK)
