"""Loads a relation from data files: parts are read on all workers, and each shard loads its rows."""
from __future__ import annotations

import os
import queue
from operator import itemgetter
from typing import Any, Callable, Iterator, Mapping, NamedTuple, Sequence

from .errors import ShardLost
from .laying import lay_down
from .links import LOOK, Link, Pending, all_of, workers
from .messages import Loaded
from .parts import split
from .spread import Homes


class Progress(NamedTuple):
    """How far a load is: parts that are read, shards that have loaded, and the rows in these."""
    read: int
    parts: int
    loaded: int
    shards: int
    rows: int


def load_parts(client: Any, links: Sequence[Link], relation: str, homes: Homes, paths: Sequence[str], has_header: bool,
               told: Callable[[Progress], None]) -> dict[int, Loaded]:
    """What each shard has loaded of the data files."""
    count = len(links)
    parts = [client.submit(split, os.path.abspath(path), has_header, homes, count, pure=False) for path in paths]
    laid: dict[Any, Link] = {}
    for link in links:
        pieces = [client.submit(itemgetter(link.number), part, pure=False) for part in parts]
        laid[client.submit(lay_down, pieces, workers=[link.worker], allow_other_workers=False, pure=False)] = link
    progress = Progress(0, len(parts), 0, count, 0)
    loads: dict[int, Pending] = {}
    try:
        for future in finished(client, [*parts, *laid], laid):
            if future in laid:
                loads[laid[future].number] = laid[future].ask("load", relation, future.result())
            else:
                progress = progress._replace(read=progress.read + 1)
                told(progress)
    except ShardLost as lost:
        raise ShardLost(lost.shard, lost.worker, lost.why, all_of(loads)) from lost
    finally:
        client.cancel([*parts, *laid])

    def tell(loaded: Loaded) -> None:
        nonlocal progress
        progress = progress._replace(loaded=progress.loaded + 1, rows=progress.rows + loaded.rows)
        told(progress)
    return all_of(loads, tell)


def finished(client: Any, futures: Sequence[Any], pinned: Mapping[Any, Link]) -> Iterator[Any]:
    """Futures as they come, each of which has succeeded; raises what one raised, `ShardLost` where its worker has died."""
    come: queue.SimpleQueue[Any] = queue.SimpleQueue()
    for future in futures:
        future.add_done_callback(come.put)
    left = set(futures)
    while left:
        try:
            future = come.get(timeout=LOOK)
        except queue.Empty:
            there = set(workers(client))
            for future in left & set(pinned):
                if pinned[future].worker not in there:
                    raise ShardLost(pinned[future].number, pinned[future].worker, "the worker has left") from None
            continue
        if future.status != "finished":
            # raises what the task raised
            future.result()
        left.remove(future)
        yield future
