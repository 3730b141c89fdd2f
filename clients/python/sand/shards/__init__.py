"""Shards: relations spread over the programs of many workers, which Dask starts and reaches.

    from distributed import Client
    from sand import Point
    from sand.shards import Hash, Shards

    with Client("scheduler:8786", direct_to_workers=True) as client, Shards(client, 4) as db:
        db.create("create cafe (at point, name text, number int)", Hash("number"))
        db.load("cafe", [(Point(10, 10), "Alba", 1), (Point(40, 10), "Brin", 2)])
        db.tell("index cafe.at")
        for gap, number, name in db.rows("fetch (rank cafe.at from (12 10)) 1.name"):
            print(gap, number, name)

Where one program gives ids, a row has its keys: the values of its relations' key columns. Read `database.py` first, then
`spread.py` (where rows go), `merged.py` and `firsts.py` (how answers come), `shard.py` and `answering.py` (what a worker has).
`import sand` needs no Dask.
"""
from .database import Shards
from .errors import NotSpread, ShardLost, ShardRefused
from .loading import Progress
from .merged import SpreadCursor
from .messages import Changed
from .regions import Regions, quarters
from .rows import KeyedRow
from .spread import Copied, Hash, Key, Region, Spread

__all__ = [
    "Changed", "Copied", "Hash", "Key", "KeyedRow", "NotSpread", "Progress", "Region", "Regions", "ShardLost", "ShardRefused",
    "Shards", "Spread", "SpreadCursor", "quarters",
]
