#!/usr/bin/env python3
"""Prints what overlapping polygons take by quadtrees and by an R-tree, as a table in Markdown. It gives no verdict.

  bench/overlaps.py [--frames N] [--turns N] [--program FILE] [stars|squares|squares100|circles ..]

  stars    10,000 of 3 to 64 corners round places of 64 clusters, with radii of 128 to 6,400, small ones more often
  squares  18 in each other, the largest the whole plane, each next one 800 further in; squares100 has 100 of them
  circles  1,000 of 64 corners and a radius of 48,000, spread over the plane

Each is loaded, and its tree is made: a quadtree with the threshold 8, one with the greatest threshold, 64, the R-tree, and quadtrees of
eight relations over which the shapes are dealt in turn. Printed are the medians over the turns of the seconds of the processor until the
trees are there, or one is refused; the megabytes that the program held at the most; and the microseconds of the processor for one of 100
rankings of 10 rows, asked of each relation.
"""
from __future__ import annotations

import argparse
import math
import os
import random
import statistics
import tempfile
from typing import NamedTuple

from shard_tables import shown
from sizes import megabytes, processor
from works import LAST, PROGRAM, clamp

# found by what `sizes` did
from sand import Refused, Sand

PARTS = 8


class Way(NamedTuple):
    """How shapes get a tree: what is called so, its statement for a relation, over how many they are dealt, and who ranks by it."""
    name: str
    made: str
    parts: int
    plan: str


WAYS = [Way("threshold 8", "index {}.area", 1, "rank"), Way("threshold 64", "index {}.area 64", 1, "rank"),
        Way(f"threshold 8, {PARTS} relations", "index {}.area", PARTS, "rank"), Way("R-tree", "rtree {}.area", 1, "near")]


def polygon(corners: list[tuple[float, float]]) -> str:
    return "(" + " ".join(f"({clamp(x)} {clamp(y)})" for x, y in corners) + ")"


def star(draw: random.Random, x: float, y: float) -> str:
    radius = math.exp(draw.uniform(math.log(128), math.log(6_400)))
    turns = sorted(draw.uniform(0, math.tau) for _ in range(draw.randint(3, 64)))
    reaches = [radius * draw.uniform(0.5, 1) for _ in turns]
    return polygon([(x + reach * math.cos(it), y + reach * math.sin(it)) for it, reach in zip(turns, reaches)])


def stars() -> list[str]:
    draw = random.Random("stars")
    clusters = [(draw.uniform(0, LAST), draw.uniform(0, LAST), draw.uniform(3_200, 48_000)) for _ in range(64)]
    middles = [(draw.gauss(x, spread), draw.gauss(y, spread)) for x, y, spread in draw.choices(clusters, k=10_000)]
    return [star(draw, clamp(x), clamp(y)) for x, y in middles]


def squares(count: int) -> list[str]:
    corners = [(800 * it, LAST - 800 * it) for it in range(count)]
    return [polygon([(low, low), (high, low), (high, high), (low, high)]) for low, high in corners]


def circles() -> list[str]:
    draw, radius = random.Random("circles"), 48_000
    middles = [(draw.randint(radius, LAST - radius), draw.randint(radius, LAST - radius)) for _ in range(1_000)]
    turns = [math.tau * it / 64 for it in range(64)]
    return [polygon([(x + radius * math.cos(it), y + radius * math.sin(it)) for it in turns]) for x, y in middles]


SETS = {"stars": stars, "squares": lambda: squares(18), "squares100": lambda: squares(100), "circles": circles}


def turn(asked: argparse.Namespace, shapes: list[str], way: Way, folder: str) -> tuple[float, float, float, str]:
    """Seconds of the trees, megabytes, microseconds of a ranking, and a refusal where there is one."""
    draw = random.Random(len(shapes))
    goals = [f"from ({draw.randint(0, LAST)} {draw.randint(0, LAST)})" for _ in range(100)]
    relations = [f"r{part}" for part in range(way.parts)]
    with Sand(program=asked.program, frames=asked.frames) as db:
        process = db._program._process.pid
        for part, relation in enumerate(relations):
            file = os.path.join(folder, "part.csv")
            with open(file, "w", encoding="utf-8") as it:
                it.writelines(f"{shape}\n" for shape in shapes[part::way.parts])
            db.tell(f"create {relation} (area polygon)")
            db.tell(f'load {relation} "{file}"')
        begin, refusal = processor(process), ""
        try:
            for relation in relations:
                db.tell(way.made.format(relation))
        except Refused as refused:
            refusal = f"refused {refused.number} {refused.word}"
        made = processor(process)
        if not refusal:
            db._program.answers([(f"show 10 {way.plan} {relation}.area {goal}", 10) for goal in goals for relation in relations])
        return made - begin, megabytes(process, "VmHWM"), (processor(process) - made) / len(goals) * 1e6, refusal


def main() -> None:
    asked = argparse.ArgumentParser(description=__doc__, formatter_class=argparse.RawDescriptionHelpFormatter)
    asked.add_argument("--frames", type=int, default=4096)
    asked.add_argument("--turns", type=int, default=5)
    asked.add_argument("--program", default=PROGRAM)
    asked.add_argument("sets", nargs="*", default=list(SETS))
    asked = asked.parse_args()
    asked.program = os.path.abspath(asked.program)
    print(f"{asked.frames:,} frames, medians of {asked.turns} turns\n\n| shapes | tree | s | at most: MB | a ranking: us |\n|---|---|---|---|---|", flush=True)
    with tempfile.TemporaryDirectory() as folder:
        for name in asked.sets:
            shapes = SETS[name]()
            found = [[turn(asked, shapes, way, folder) for way in WAYS] for _ in range(asked.turns)]
            for way, turns in zip(WAYS, zip(*found)):
                took, held, ranking = (statistics.median(it[at] for it in turns) for at in range(3))
                print(f"| {name} | {way.name} | {shown(took)} | {shown(held)} | {turns[0][3] or shown(ranking)} |", flush=True)


if __name__ == "__main__":
    main()
