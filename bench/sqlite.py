#!/usr/bin/env python3
"""Prints what SQLite with its R*Tree needs for some of the works of works.py, and the program beside it, as a table of Markdown.
It gives no verdict.

  bench/sqlite.py [--size N] [--set uniform|clustered] [--frames N] [--turns N] [--program FILE] [WORK..]

In each turn SQLite does a work in a process of its own, and then the program does it. Seconds are of the processor and of the work
alone, without loading and indexing (but for `build`) and without reading the data file on SQLite's side; a figure is the median of
the turns, and a ratio that of the turns' ratios.
SQLite keeps its tree in memory, and is asked as a user of it would ask: a ranking takes the nearest of a window around its goal, and
of a window of twice the side while they may not be the nearest. That both found the same is tried by the sums of their squared
distances, or by the counts of their rows.
"""
import argparse
import csv
import multiprocessing
import os
import sqlite3
import statistics
import subprocess
import tempfile
import threading
import time
from typing import Any

from works import LAST, PROGRAM, Data

WORKS = "build knn10 knn100 browse100 window update".split()
NEAREST = """select (x0 - :x) * (x0 - :x) + (y0 - :y) * (y0 - :y) as gap, id from p
             where x1 >= :x - :side and x0 <= :x + :side and y1 >= :y - :side and y0 <= :y + :side and pop >= :least order by gap, id limit :most"""
INSIDE = "select count(*) from p where x1 >= ? and y1 >= ? and x0 <= ? and y0 <= ?"
END = "refused 21 UnknownCursor"
INSERT = "insert into p values (?, ?, ?, ?, ?, ?, ?)"


def nearest(db: sqlite3.Connection, x: int, y: int, most: int, least: int, side: float) -> list[int]:
    """The squared distances of the nearest rows that pass, from windows that grow."""
    while True:
        found = [gap for gap, _ in db.execute(NEAREST, {"x": x, "y": y, "most": most, "least": least, "side": side})]
        if len(found) == most and found[-1] <= side * side or side > LAST:
            return found
        side *= 2


def by_sqlite(data: Data, work: str, told: Any) -> None:
    """Tells the seconds that SQLite takes for a work, and the sum of what it found."""
    with open(os.path.join(data.folder, "points.csv"), encoding="utf-8", newline="") as file:
        places = [(*map(int, place.strip("()").split()), name, int(pop)) for place, name, pop in csv.reader(file)]
    rows = [(id, x, x, y, y, name, pop) for id, (x, y, name, pop) in enumerate(places, 1)]
    number = int("".join(it for it in work if it.isdigit()) or 0)
    db = sqlite3.connect(":memory:", isolation_level=None)
    db.execute("create virtual table p using rtree_i32(id, x0, x1, y0, y1, +name text, +pop int)")
    start, found = time.process_time(), 0
    db.execute("begin")
    db.executemany(INSERT, rows)
    db.execute("commit")
    if work not in ("build", "update"):  # the change that the program's rows have, too
        db.execute(INSERT, (data.size + 1, 0, 0, 0, 0, "n", 0))
        db.execute("delete from p where id = 1")
    if work != "build":
        start = time.process_time()
    if work.startswith(("knn", "browse")):
        passes = 1 if work.startswith("knn") else number
        most, least = (number, 0) if work.startswith("knn") else (1, 10_000_000 - 10_000_000 // number)
        side = LAST * (most * passes / data.size) ** 0.5 / 4
        found = sum(sum(nearest(db, x, y, most, least, side)) for x, y in data.goals)
    elif work == "window":
        found = sum(db.execute(INSIDE, it).fetchone()[0] for it in data.windows)
    elif work == "update":
        db.execute("begin")
        for id, ((x, y, pop), old) in enumerate(zip(data.inserts, data.deletes), data.size + 1):
            db.execute(INSERT, (id, x, x, y, y, "n", pop))
            db.execute("delete from p where id = ?", (old,))
        db.execute("commit")
    told.put((time.process_time() - start, found))


class Program:
    """The program on pipes, whose time is read between its answers."""

    def __init__(self, words: list[str], folder: str) -> None:
        self.process = subprocess.Popen(words, stdin=subprocess.PIPE, stdout=subprocess.PIPE, cwd=folder)
        self.feed(["create p (at point, name text, pop int)"])

    def feed(self, lines: list[str]) -> tuple[float, list[str]]:
        """The processor's seconds of some lines, and what they print: all in front of the refusal of one that no work has."""
        before, told = self.used(), "".join(f"{line}\n" for line in [*lines, "stats nobody"]).encode()
        writer = threading.Thread(target=lambda: (self.process.stdin.write(told), self.process.stdin.flush()))
        writer.start()
        found = list(iter(lambda: self.process.stdout.readline().decode().rstrip("\n"), END))
        writer.join()
        return self.used() - before, found

    def used(self) -> float:
        with open(f"/proc/{self.process.pid}/schedstat", encoding="utf-8") as file:
            return int(file.read().split()[0]) / 1e9


def by_program(words: list[str], data: Data, work: str) -> tuple[float, int]:
    """The same of the program."""
    program = Program(words, data.folder)
    build, _ = program.feed(data.load(work)[1:])
    if work == "build":
        seconds, lines = build, []
    else:
        program.feed(data.before(work))
        seconds, lines = program.feed(data.queries(work))
    program.process.communicate()
    rows = [it for it in lines if "\t" in it]
    return seconds, len(rows) if work == "window" else sum(int(it.split("\t", 1)[0]) for it in rows)


def main() -> None:
    asked = argparse.ArgumentParser(description=__doc__, formatter_class=argparse.RawDescriptionHelpFormatter)
    asked.add_argument("--size", type=int, default=100_000)
    asked.add_argument("--set", choices=("uniform", "clustered"), default="clustered")
    asked.add_argument("--frames", type=int, default=4096)
    asked.add_argument("--turns", type=int, default=5)
    asked.add_argument("--program", default=PROGRAM)
    asked.add_argument("works", nargs="*", default=WORKS)
    asked = asked.parse_args()
    words = [os.path.abspath(asked.program), "--frames", str(asked.frames)]
    with tempfile.TemporaryDirectory() as folder:
        data = Data(folder, asked.size, asked.set)
        print(f"{asked.size:,} {asked.set} points, {asked.frames} frames, SQLite {sqlite3.sqlite_version}, medians of {asked.turns} turns\n")
        print("| Work | SAND, s | SQLite, s | ratio |\n|---|---|---|---|")
        for work in asked.works:
            turns = []
            for _ in range(asked.turns):
                told = multiprocessing.Queue()
                child = multiprocessing.Process(target=by_sqlite, args=(data, work, told))
                child.start()
                (theirs, found), (ours, rows) = told.get(), by_program(words, data, work)
                child.join()
                if found != rows:
                    raise SystemExit(f"{work}: {rows} by the program, and {found} by SQLite")
                turns.append((ours, theirs, ours / theirs))
            ours, theirs, ratio = (statistics.median(it) for it in zip(*turns))
            print(f"| {work} | {ours:.3f} | {theirs:.3f} | {ratio:.2f} |", flush=True)


if __name__ == "__main__":
    main()
