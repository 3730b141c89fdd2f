#!/usr/bin/env python3
"""Prints what shards take beside one program, as the tables of docs/SCALING.md; it gives no verdict.

  bench/shards.py [--program FILE] [--rows N] [--sizes N,N..] [--shards N] [--clients N] [--rankings N] [--frames N]
                  [--repeat N] [--only NAME,NAME..]

It needs Dask (python3-distributed of Debian: run it by /usr/bin/python3), and starts a cluster of as many workers as shards on
this machine. Rows are points spread evenly over the plane, each with a text and a number, in two data files for each shard; one
program loads them from one file. First one program is measured at each of the sizes, then it and shards at `rows`: `one`,
`single` (one shard), `hash` and `region`; what is left out of `only` has empty cells. Rankings are of ten rows with their texts,
pulled by clients that are processes of their own: each by a `first`, or all of a client's by one `firsts`. Filtered ones, a tenth
as many, are of ten rows that one in a thousand passes. One program is asked on a pipe, by one client, one ranking after the other.
Seconds are of the wall clock, rates a second of it, the best of some repeats; megabytes are the most that a process had. What a
build took of a processor, of shards in the worker that took most with its program, says what it is where processors are free; so
do the microseconds of a processor that a ranking takes of the client, of all workers and of all programs.
"""
from __future__ import annotations

import argparse
import logging
import multiprocessing
import os
import pickle
import random
import sys
import tempfile
import time
from pathlib import Path
from typing import Any, Callable, Dict, Iterable, List, NamedTuple, Tuple

from shard_tables import Ranking, Taken, tables

TOP = Path(__file__).resolve().parents[1]
sys.path.insert(0, str(TOP / "clients" / "python"))
from sand import Sand  # noqa: E402
from sand.shards import Hash, Region, Shards, Spread  # noqa: E402
from sand.shards.links import distributed  # noqa: E402

LAST = (1 << 20) - 1
CREATE = "create p (at point, name text, number int)"
TEN, ROWS = 10, 1000


def write_rows(folder: str, count: int, parts: int) -> List[str]:
    """Data files of points, and one with all of them as the last."""
    draw = random.Random(count)
    rows = [f"({draw.randint(0, LAST)} {draw.randint(0, LAST)}),place {number},{number}\n" for number in range(count)]
    names = [os.path.join(folder, f"{part}.csv") for part in range(parts)]
    for part, name in enumerate(names):
        Path(name).write_text("".join(rows[part * count // parts:(part + 1) * count // parts]))
    whole = os.path.join(folder, "whole.csv")
    Path(whole).write_text("".join(rows))
    return [*names, whole]


def plans(count: int, seed: int) -> List[str]:
    """Rankings from places of the plane."""
    draw = random.Random(seed)
    return [f"fetch (rank p.at from ({draw.randint(0, LAST)} {draw.randint(0, LAST)})) 1.name" for _ in range(count)]


def filtered(goals: List[str], rows: int) -> List[str]:
    """Every tenth of the rankings, of those rows that one in a thousand passes."""
    return [goal.replace("fetch (", "fetch (filter (").replace(") 1.", f") where 1.number < {rows // 1000}) 1.") for goal in goals[::10]]


def megabytes(process: int | str) -> float:
    """The most memory that a process had."""
    with open(f"/proc/{process}/status", encoding="utf-8") as status:
        return next(int(line.split()[1]) / 1024 for line in status if line.startswith("VmHWM:"))


def processor(process: int | str) -> float:
    """The seconds of the processor that the threads of a process have taken."""
    return sum(int(Path(task, "schedstat").read_text().split()[0]) for task in Path(f"/proc/{process}/task").iterdir()) / 1e9


class Used(NamedTuple):
    """What a worker has used and its programs, those of one shard after the other: most memory, and seconds of the processor."""
    worker: float
    programs: List[float]
    worker_seconds: float
    program_seconds: List[float]


def used() -> Tuple[float, List[float], float, List[float]]:
    """What this worker has used, as the parts of a `Used`."""
    children: List[str] = []
    for task in os.listdir("/proc/self/task"):
        with open(f"/proc/self/task/{task}/children", encoding="utf-8") as file:
            children += file.read().split()
    return (megabytes("self"), [megabytes(child) for child in children],
            processor("self"), [processor(child) for child in children])


def used_by_all(client: Any) -> Dict[str, Used]:
    """What each worker has used."""
    return {worker: Used(*parts) for worker, parts in client.run(used).items()}


def seconds(do: Callable[[], Any]) -> float:
    begin = time.perf_counter()
    do()
    return time.perf_counter() - begin


def note(text: str) -> None:
    """Says how far it is, beside the tables."""
    print(text, file=sys.stderr, flush=True)


def measure_one(whole: str, size: int, asked: argparse.Namespace) -> Taken:
    """What one program takes at a size."""
    one = Taken()
    for _ in range(asked.repeat):
        with Sand(program=asked.program, frames=asked.frames) as db:
            process = db._program._process.pid
            db.tell(CREATE)
            one.loads.append(seconds(lambda: db.tell(f'load p "{whole}"')))
            one.builds.append(one.loads[-1] + seconds(lambda: db.tell("index p.at")))
            one.processor.append(processor(process))
            goals = plans(max(asked.rankings, 10), 1)
            for way, some in (("first", goals), ("filtered", filtered(goals, size))):
                own, other = time.process_time(), processor(process)
                took = seconds(lambda: [db.first(TEN, goal) for goal in some])
                count = len(some)
                one.asked(way, Ranking(count / took, (time.process_time() - own) / count, 0.0, (processor(process) - other) / count))
            times = []
            for most in (1, 1, 64):
                with db.rows(goals[0], most) as cursor:
                    times.append(seconds(lambda: [next(cursor) for _ in range(ROWS)]) / ROWS * 1000)
            one.rows(times)
            one.memory = megabytes(process)
    return one


def measure_shards(client: Any, count: int, spread: Spread, parts: List[str], asked: argparse.Namespace) -> Taken:
    """What shards take: their load, their rankings pulled by several clients, their rows."""
    taken = Taken()
    for left in reversed(range(asked.repeat)):
        with Shards(client, count, program=asked.program, frames=asked.frames) as db:
            db.create(CREATE, spread)
            before = used_by_all(client)
            taken.loads.append(seconds(lambda: db.load_parts("p", parts)))
            taken.builds.append(taken.loads[-1] + seconds(lambda: db.tell("index p.at")))
            after = used_by_all(client)
            taken.processor.append(max(after[worker].worker_seconds - before[worker].worker_seconds + sum(after[worker].program_seconds)
                                       for worker in after))
            taken.memory = max(most for worker in after.values() for most in worker.programs)
            if left == 0:
                for way in ("first", "firsts", "filtered") if asked.rankings else ():
                    for _ in range(asked.repeat):
                        taken.asked(way, pulled(client, db, way, asked))
                for _ in range(asked.repeat):
                    taken.rows(row_times(db))
    return taken


def row_times(db: Shards) -> List[float]:
    """Milliseconds of a row of a ranking: row by row, by `take`, and asked ahead."""
    goal = plans(1, 1)[0]
    with db.rows(goal) as cursor, db.rows(goal) as taken, db.rows(goal, 64) as ahead:
        return [took / ROWS * 1000 for took in (
            seconds(lambda: [next(cursor) for _ in range(ROWS)]), seconds(lambda: taken.take(ROWS)),
            seconds(lambda: [next(ahead) for _ in range(ROWS)]))]


def pulled(client: Any, db: Shards, way: str, asked: argparse.Namespace) -> Ranking:
    """What rankings take that several clients pull."""
    spawn = multiprocessing.get_context("spawn")
    gate, spent = spawn.Barrier(asked.clients + 1), spawn.Queue()
    goals = [plans(asked.rankings // asked.clients, seed) for seed in range(asked.clients)]
    if way == "filtered":
        goals = [filtered(some, asked.rows) for some in goals]
    count = sum(map(len, goals))
    processes = [spawn.Process(target=pull, args=(client.scheduler.address, pickle.dumps(db), some, way, gate, spent)) for some in goals]
    for process in processes:
        process.start()
    gate.wait()
    before = used_by_all(client)
    gate.wait()
    took = seconds(gate.wait)
    after = used_by_all(client)
    own = sum(spent.get() for _ in processes)
    for process in processes:
        process.join()
    workers = sum(after[worker].worker_seconds - before[worker].worker_seconds for worker in after)
    programs = sum(sum(after[worker].program_seconds) - sum(before[worker].program_seconds) for worker in after)
    return Ranking(count / took, own / count, workers / count, programs / count)


def pull(address: str, sent: bytes, goals: List[str], way: str, gate: Any, spent: Any) -> None:
    """One client: its rankings, between two gates at which all clients wait for each other."""
    with distributed.Client(address, direct_to_workers=True):
        db = pickle.loads(sent)
        # what has to be set up once is
        db.firsts(TEN, plans(50, 0))
        gate.wait()
        gate.wait()
        begin = time.process_time()
        if way == "first":
            for goal in goals:
                db.first(TEN, goal, most=TEN)
        else:
            db.firsts(TEN, goals)
        gate.wait()
        spent.put(time.process_time() - begin)


def sizes(text: str) -> Iterable[int]:
    return [int(size) for size in text.split(",") if size]


def main() -> None:
    words = argparse.ArgumentParser(description=__doc__, formatter_class=argparse.RawDescriptionHelpFormatter)
    words.add_argument("--program", default=os.environ.get("SAND", str(TOP / "crates" / "sand_shell" / "out" / "sand_shell")))
    words.add_argument("--rows", type=int, default=1_000_000)
    words.add_argument("--sizes", type=sizes, default="10000,100000")
    words.add_argument("--shards", type=int, default=4)
    words.add_argument("--clients", type=int, default=4)
    words.add_argument("--rankings", type=int, default=1000)
    words.add_argument("--frames", type=int, default=4096)
    words.add_argument("--repeat", type=int, default=3)
    words.add_argument("--only", default="one,single,hash,region")
    asked = words.parse_args()
    asked.program = os.path.abspath(asked.program)
    only, began = asked.only.split(","), time.monotonic()
    print(f"{os.cpu_count()} processors, load {os.getloadavg()[0]:.1f} at the begin")
    found: Dict[str, Taken] = {}
    by_size: Dict[int, Taken] = {}
    with tempfile.TemporaryDirectory() as folder:
        for size in [*asked.sizes, asked.rows]:
            *parts, whole = write_rows(folder, size, 2 * asked.shards)
            if "one" in only:
                note(f"one program, {size:,} rows")
                found["one"] = by_size[size] = measure_one(whole, size, asked)
        with distributed.LocalCluster(n_workers=asked.shards, threads_per_worker=1, processes=True, dashboard_address=":0",
                                      silence_logs=logging.ERROR) as cluster, \
                distributed.Client(cluster, direct_to_workers=True) as client:
            spreads: Dict[str, Tuple[int, Spread]] = {
                "single": (1, Hash("number")), "hash": (asked.shards, Hash("number")), "region": (asked.shards, Region("number", "at"))}
            for name in [name for name in spreads if name in only]:
                note(f"shards: {name}")
                found[name] = measure_shards(client, *spreads[name], parts, asked)
    tables(by_size, found, asked.rows, asked.shards, asked.clients)
    print(f"\nload {os.getloadavg()[0]:.1f} at the end, {time.monotonic() - began:.0f} s")


if __name__ == "__main__":
    main()
