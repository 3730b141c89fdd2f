#!/usr/bin/env python3
"""Prints how a quadtree and an R-tree serve points, the segments of street networks and the outlines of buildings. It gives no verdict.

  bench/shapes.py [--size N] [--frames N] [--turns N] [--program FILE] [points|roads|buildings ..]

Of each set N rows of its own making are loaded. The two trees take turns, and what is printed is the least over the turns, in seconds of
the processor, and the ratio of both:

  index    the quadtree, and the R-tree, of rows that are there
  10, 100  20,000 rankings of 10 rows by `rank` and by `near` from the same points, or 4,000 of 100 rows
  update   4,000 rows inserted and 4,000 deleted under the one tree and under the other

Towns lie in the plane with many small ones and few large ones. A street network has a jittered junction each 60 units in a town, and most
neighbours are joined by a segment, so that segments join and don't cross. Buildings are squares and L-shapes of 8 to 24 units on plots of
30 units, so none overlap. The points stand where the buildings do. A goal is a point of a town.
"""
import argparse
import os
import random
import tempfile

from works import LAST, PROGRAM, clamp, run

SETS = {"points": "point", "roads": "segment", "buildings": "polygon"}
PITCH = {"points": 30, "roads": 60, "buildings": 30}


def towns(draw: random.Random, size: int, pitch: int, share: float) -> list[tuple[int, int, int]]:
    """The low corner of each town and how many plots its side has; so many rows come of a plot."""
    weights = [draw.paretovariate(1.2) for _ in range(40)]
    sides = [max(2, round((size * 1.1 * it / sum(weights) / share) ** 0.5)) for it in weights]
    taken: list[tuple[int, int, int]] = []
    for side in sides:
        reach = side * pitch
        while True:
            x, y = draw.randint(pitch, LAST - reach - pitch), draw.randint(pitch, LAST - reach - pitch)
            if all(abs(x - u) > max(reach, other * pitch) or abs(y - v) > max(reach, other * pitch) for u, v, other in taken):
                taken.append((x, y, side))
                break
    return taken


def roads(draw: random.Random, town: tuple[int, int, int]) -> list[str]:
    """A town's streets: a junction for each plot, moved by up to a third of the pitch, and most of the segments between neighbours."""
    x, y, side = town
    at = {(i, j): (x + 60 * i + draw.randint(-20, 20), y + 60 * j + draw.randint(-20, 20)) for i in range(side) for j in range(side)}
    pairs = [((i, j), next_to) for i, j in at for next_to in ((i + 1, j), (i, j + 1)) if next_to in at]
    return ["({} {})-({} {})".format(*at[one], *at[other]) for one, other in pairs if draw.random() < 0.85]


def outline(draw: random.Random, x: int, y: int) -> list[tuple[int, int]]:
    """A square, or an L, in the plot at a low corner."""
    side = draw.randint(8, 24)
    x, y = x + draw.randint(0, 28 - side), y + draw.randint(0, 28 - side)
    if draw.random() < 0.5:
        return [(x, y), (x + side, y), (x + side, y + side), (x, y + side)]
    half = side // 2
    return [(x, y), (x + side, y), (x + side, y + half), (x + half, y + half), (x + half, y + side), (x, y + side)]


def plots(draw: random.Random, town: tuple[int, int, int]) -> list[tuple[int, int]]:
    x, y, side = town
    return [(x + 30 * i, y + 30 * j) for i in range(side) for j in range(side) if draw.random() < 0.85]


def shapes(draw: random.Random, kind: str, town: tuple[int, int, int]) -> list[str]:
    if kind == "roads":
        return roads(draw, town)
    outlines = [outline(draw, x, y) for x, y in plots(draw, town)]
    if kind == "points":
        return ["({} {})".format(*corners[0]) for corners in outlines]
    return ["(" + " ".join(f"({x} {y})" for x, y in corners) + ")" for corners in outlines]


class Set:
    """Shapes of a kind, goals, and what is inserted and deleted."""

    def __init__(self, kind: str, size: int) -> None:
        draw = random.Random(f"{kind} {size}")
        places = towns(draw, size + 4000, PITCH[kind], 1.7 if kind == "roads" else 0.85)
        made = [it for town in places for it in shapes(draw, kind, town)]
        draw.shuffle(made)
        assert len(made) >= size + 4000, len(made)
        self.kind, self.rows, self.inserts = kind, made[:size], made[size : size + 4000]
        self.deletes = draw.sample(range(1, size + 1), 4000)
        self.goals = []
        for x, y, side in draw.choices(places, [it[2] ** 2 for it in places], k=2000):
            reach = side * PITCH[kind]
            self.goals.append((clamp(x + draw.randint(0, reach)), clamp(y + draw.randint(0, reach))))

    def load(self, folder: str) -> list[str]:
        with open(os.path.join(folder, self.kind + ".csv"), "w", encoding="utf-8") as file:
            file.writelines(f"{it}\n" for it in self.rows)
        return [f"create s (at {SETS[self.kind]})", f'load s "{self.kind}.csv"']

    def queries(self, count: int, plan: str) -> list[str]:
        return [f"show {count} {plan} s.at from ({x} {y})" for x, y in self.goals]

    def updates(self) -> list[str]:
        return [it for shape, id in zip(self.inserts, self.deletes) for it in (f"insert s {shape}", f"delete s {id}")]


def scripts(data: Set, load: list[str], made: str, plan: str) -> dict[str, list[str]]:
    """What is run in a turn, by what is measured with it."""
    return {
        "load": load,
        "index": load + [made],
        "10": load + [made] + data.queries(10, plan) * 10,
        "100": load + [made] + data.queries(100, plan) * 2,
        "update": load + [made] + data.updates(),
    }


def seconds(least: dict[str, float]) -> dict[str, float]:
    """What each work took beside the script without it."""
    return {work: took - least["load" if work == "index" else "index"] for work, took in least.items() if work != "load"}


def main() -> None:
    asked = argparse.ArgumentParser(description=__doc__, formatter_class=argparse.RawDescriptionHelpFormatter)
    asked.add_argument("--size", type=int, default=100_000)
    asked.add_argument("--frames", type=int, default=4096)
    asked.add_argument("--turns", type=int, default=5)
    asked.add_argument("--program", default=PROGRAM)
    asked.add_argument("sets", nargs="*", default=list(SETS))
    asked = asked.parse_args()
    words = [os.path.abspath(asked.program), "--frames", str(asked.frames)]
    print(f"{asked.size:,} rows, {asked.frames} frames, least of {asked.turns} turns")
    print(f"{'set':<11}{'work':<9}{'quadtree s':>12}{'R-tree s':>10}{'ratio':>8}")
    with tempfile.TemporaryDirectory() as folder:
        for kind in asked.sets:
            data = Set(kind, asked.size)
            load = data.load(folder)
            trees = [scripts(data, load, made, plan) for made, plan in (("index s.at", "rank"), ("rtree s.at", "near"))]
            least = [{work: float("inf") for work in tree} for tree in trees]
            for _ in range(asked.turns):
                for tree, best in zip(trees, least):
                    for work, lines in tree.items():
                        best[work] = min(best[work], run(words, folder, lines)[1])
            quadtree, rtree = seconds(least[0]), seconds(least[1])
            for work, took in quadtree.items():
                print(f"{kind:<11}{work:<9}{took:>12.3f}{rtree[work]:>10.3f}{rtree[work] / took:>8.2f}", flush=True)


if __name__ == "__main__":
    main()
