#!/usr/bin/env python3
"""Prints what searches take over 10,000, 100,000 and 1,000,000 rows by how many frames there are, as a table in Markdown. It gives no verdict.

  bench/sizes.py [--sizes N,N..] [--frames N,N..] [--turns N] [--parts N] [--z-order] [--program FILE] [points|roads|buildings ..]

The rows are those of bench/shapes.py, each with a text and an int. They come in no order, from one data file, or from --parts or as many as
their bytes need; --z-order loads them in the order of tools/lib/z_order.py, too. In each turn the program loads them, indexes them, and
deletes one, so that no page waits to be written; then come 1,000 queries of a work:

  knn10      10 rows of a ranking
  browse100  a ranking up to the first row that one row in 100 passes
  window     all rows of a square with some 100 of them

A cell has a figure for each number of frames, the median of the turns: seconds of the processor for load and index together, microseconds
of it for a query, and the megabytes that the program holds at the end and held at the most.
"""
from __future__ import annotations

import argparse
import os
import random
import re
import statistics
import sys
import tempfile
import time
from pathlib import Path
from typing import Iterable

from shapes import PITCH, SETS, Set
from shard_tables import shown
from works import PROGRAM, clamp

TOP = Path(__file__).resolve().parents[1]
sys.path[:0] = [str(TOP / "clients" / "python"), str(TOP / "tools" / "lib")]
from sand import Sand  # noqa: E402
from z_order import middle, z_code  # noqa: E402

SPOT = re.compile(r"\((\d+) (\d+)\)")
# bytes of a data file, some fewer than the program takes
FULL = 60_000_000
HEADS = "rows", "load, index: s", "knn10: us", "browse100: us", "window: us", "held: MB", "at most: MB"


def place_code(shape: str) -> int:
    return z_code(middle([(int(x), int(y)) for x, y in SPOT.findall(shape)]))


def write(rows: list[str], name: str, parts: int) -> list[str]:
    """Data files of these shapes."""
    draw = random.Random(len(rows))
    lines = [f"{shape},place {number},{draw.randint(0, 9_999_999)}\n" for number, shape in enumerate(rows)]
    parts = max(parts, -(-sum(map(len, lines)) // FULL))
    files = [f"{name}.{part}.csv" for part in range(parts)]
    for part, file in enumerate(files):
        Path(file).write_text("".join(lines[part * len(lines) // parts:(part + 1) * len(lines) // parts]), encoding="utf-8")
    return files


def works(data: Set) -> list[list[tuple[str, int]]]:
    """The queries of each work, with how many rows they give at most."""
    goals, reach = data.goals[:1000], 5 * PITCH[data.kind]
    windows = [" ".join(str(clamp(it)) for it in (x - reach, y - reach, x + reach, y + reach)) for x, y in goals]
    return [[(f"show 10 rank s.at from ({x} {y})", 10) for x, y in goals],
            [(f"show 1 filter (rank s.at from ({x} {y})) where 1.pop >= 9900000", 1) for x, y in goals],
            [(f"show 1000000 window s.at {window}", 1_000_000) for window in windows]]


def processor(process: int) -> float:
    """The seconds of the processor that a process has taken, by its own clock."""
    return time.clock_gettime(~process << 3 | 2)


def megabytes(process: int, what: str) -> float:
    with open(f"/proc/{process}/status", encoding="utf-8") as status:
        return next(int(line.split()[1]) / 1024 for line in status if line.startswith(what))


def turn(program: str, frames: int, data: Set, files: list[str]) -> list[float]:
    """What stands in a row of the table behind its first cell."""
    with Sand(program=program, frames=frames) as db:
        process = db._program._process.pid
        db.tell(f"create s (at {SETS[data.kind]}, name text, pop int)")
        begin = processor(process)
        for file in files:
            db.tell(f'load s "{file}"')
        db.tell("index s.at")
        took = [processor(process) - begin]
        db.tell("delete s 1")
        for lines in works(data):
            begin = processor(process)
            db._program.answers(lines)
            took.append((processor(process) - begin) / len(lines) * 1e6)
        return [*took, megabytes(process, "VmRSS"), megabytes(process, "VmHWM")]


def rows_of(asked: argparse.Namespace, data: Set, orders: dict[str, list[str]]) -> Iterable[list[str]]:
    """The rows of the table for some orders of the rows, each in its data files; orders and numbers of frames take turns."""
    found: dict[tuple[str, int], list[list[float]]] = {(name, count): [] for name in orders for count in asked.frames}
    for _ in range(asked.turns):
        for (name, count), turns in found.items():
            turns.append(turn(asked.program, count, data, orders[name]))
    for name in orders:
        medians = [[statistics.median(column) for column in zip(*found[name, count])] for count in asked.frames]
        yield [name, *(", ".join(map(shown, column)) for column in zip(*medians))]


def numbers(text: str) -> list[int]:
    return [int(it) for it in text.split(",")]


def main() -> None:
    asked = argparse.ArgumentParser(description=__doc__, formatter_class=argparse.RawDescriptionHelpFormatter)
    asked.add_argument("--sizes", type=numbers, default=[1_000_000, 100_000, 10_000])
    asked.add_argument("--frames", type=numbers, default=[16, 256, 4096])
    asked.add_argument("--turns", type=int, default=5)
    asked.add_argument("--parts", type=int, default=1)
    asked.add_argument("--z-order", action="store_true")
    asked.add_argument("--program", default=PROGRAM)
    asked.add_argument("sets", nargs="*", default=list(SETS))
    asked = asked.parse_args()
    asked.program = os.path.abspath(asked.program)
    print(f"{', '.join(f'{it:,}' for it in asked.frames)} frames, medians of {asked.turns} turns\n")
    print(f"| {' | '.join(HEADS)} |\n|{'---|' * len(HEADS)}", flush=True)
    with tempfile.TemporaryDirectory() as folder:
        for size in asked.sizes:
            for kind in asked.sets:
                data, name = Set(kind, size), f"{size:,} {kind}"
                orders = {name: write(data.rows, os.path.join(folder, "rows"), asked.parts)}
                if asked.z_order:
                    orders[f"{name} in Z-order"] = write(sorted(data.rows, key=place_code), os.path.join(folder, "sorted"), asked.parts)
                for row in rows_of(asked, data, orders):
                    print(f"| {' | '.join(row)} |", flush=True)


if __name__ == "__main__":
    main()
