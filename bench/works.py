#!/usr/bin/env python3
"""Prints what the program needs for some work over points and segments of its own making. It gives no verdict.

  bench/works.py [--size N] [--set uniform|clustered] [--frames N] [--repeat N] [WORK..]

A work item is run twice: the script that creates, loads and indexes its relations and then changes a row or two, so that no page
waits to be written, and the same with its queries behind it. What is printed is the difference of the two in seconds of the wall clock and of the processor, the least of some
repeats, the rows or lines that came, the visits that `stats` counts for the same queries, and the peak memory.

  build        N rows with a point, a text and an int are loaded and the points indexed
  knn10        1,000 rankings, 10 rows of each; knn100 likewise; far10 the 10 rows farthest from each of the same goals
  near10       the rankings of knn10 by an R-tree; near100 and nearby1000 are knn100 and browse1000 so
  index, rtree the quadtree or the R-tree of the points that are there is made
  browse100    1,000 rankings browsed up to the first row that one row in 100 passes; browse1000 likewise
  window       1,000 windows, all rows of each
  join100      the first 100 pairs of points and segments; semi100 the first 100 points with their nearest segment; partners5 the first
               500 pairs of points with their five nearest segments
  update       10,000 rows inserted and 10,000 deleted, each a statement of its own; update1, update16: beside so many open cursors;
               update_rtree and update_both: under an R-tree in place of the quadtree, and beside it
  kept1000     16 cursors browse for 60 rows that one in 1000 passes, opened before an update; fresh1000: opened behind it
"""
import argparse
import os
import random
import subprocess
import tempfile
import threading
import time

HERE = os.path.dirname(os.path.abspath(__file__))
PROGRAM = os.path.join(HERE, "..", "crates", "sand_shell", "out", "sand_shell")
WORKS = """build index rtree knn10 near10 knn100 near100 far10 browse100 browse1000 nearby1000 window join100 semi100 partners5
update update_rtree update_both update1 update16 kept1000 fresh1000""".split()
LAST = (1 << 20) - 1
# A row that comes and goes: the first change writes all pages that loading and indexing staged.
CHANGED = ['insert p (0 0), "n", 0', "delete p 1"]


def clamp(value: float) -> int:
    return max(0, min(LAST, round(value)))


class Data:
    """A data set: files in a folder, and the queries over them. Everything follows from the size and the kind."""

    def __init__(self, folder: str, size: int, kind: str) -> None:
        self.folder, self.size, draw = folder, size, random.Random(f"{kind} {size}")
        centres = [(draw.uniform(0, LAST), draw.uniform(0, LAST), draw.uniform(3_200, 48_000)) for _ in range(64)]

        def place() -> tuple[int, int]:
            if kind == "uniform":
                return draw.randint(0, LAST), draw.randint(0, LAST)
            x, y, spread = draw.choice(centres)
            return clamp(draw.gauss(x, spread)), clamp(draw.gauss(y, spread))

        with open(os.path.join(folder, "points.csv"), "w", encoding="utf-8") as file:
            for number in range(size):
                x, y = place()
                file.write(f"({x} {y}),place {number},{draw.randint(0, 9_999_999)}\n")
        reach = max(4, 320_000 // round(size**0.5))
        with open(os.path.join(folder, "ways.csv"), "w", encoding="utf-8") as file:
            for _ in range(size):
                x, y = place()
                file.write(f"({x} {y})-({clamp(x + draw.randint(-reach, reach))} {clamp(y + draw.randint(-reach, reach))})\n")
        self.goals = [place() for _ in range(1000)]
        side = round(LAST / (size / 100) ** 0.5 / 2)
        self.windows = [(clamp(x - side), clamp(y - side), clamp(x + side), clamp(y + side)) for x, y in self.goals]
        self.inserts = [(*place(), draw.randint(0, 9_999_999)) for _ in range(10_000)]
        self.deletes = draw.sample(range(1, size + 1), min(size, 10_000))

    def load(self, work: str) -> list[str]:
        """The relations of a work item, with their indexes."""
        trees = {"index": [], "rtree": [], "update_rtree": ["rtree p.at"], "update_both": ["index p.at", "rtree p.at"]}
        made = trees.get(work, ["rtree p.at"] if work.startswith("near") else ["index p.at"])
        lines = ["create p (at point, name text, pop int)", 'load p "points.csv"', *made]
        ways = work in ("join100", "semi100", "partners5")
        return lines + ["create s (way segment)", 'load s "ways.csv"', "index s.way"] * ways

    def opened(self, work: str, number: int) -> list[str]:
        """Cursors that browse for rows that one in so many passes, or rank."""
        if work.startswith("update"):
            return [f"open c{at} = rank p.at from ({x} {y})" for at, (x, y) in enumerate(self.goals[:number])]
        least = 10_000_000 - 10_000_000 // number
        return [f"open c{at} = filter (rank p.at from ({x} {y})) where 1.pop >= {least}" for at, (x, y) in enumerate(self.goals[:16])]

    def before(self, work: str) -> list[str]:
        """What stands between the loading and the queries, and isn't counted."""
        number = int("".join(it for it in work if it.isdigit()) or 0)
        if work.startswith("update"):
            return self.opened(work, number) if number else []
        if work.startswith("kept"):
            return self.opened(work, number) + self.queries("update")
        if work.startswith("fresh"):
            return self.queries("update") + self.opened(work, number)
        return [] if work in ("build", "index", "rtree") else CHANGED

    def queries(self, work: str) -> list[str]:
        number = int("".join(it for it in work if it.isdigit()) or 0)
        if work in ("index", "rtree"):
            return [f"{work} p.at"]
        plan = "near" if work.startswith("near") else "rank"
        if work in ("knn10", "knn100", "near10", "near100"):
            return [f"show {number} {plan} p.at from ({x} {y})" for x, y in self.goals]
        if work == "far10":
            return [f"far {number} p.at from ({x} {y})" for x, y in self.goals]
        if work.startswith(("browse", "nearby")):
            least = 10_000_000 - 10_000_000 // number
            return [f"show 1 filter ({plan} p.at from ({x} {y})) where 1.pop >= {least}" for x, y in self.goals]
        if work.startswith(("kept", "fresh")):
            return [f"next c{at} 60" for at in range(16)]
        if work == "window":
            return [f"show 1000000 window p.at {x} {y} {u} {v}" for x, y, u, v in self.windows]
        if work in ("join100", "semi100"):
            return [f"show {number} {work[:-3]} p.at s.way"]
        if work == "partners5":
            return ["show 500 knn 5 p.at s.way"]
        both = zip(self.inserts, self.deletes)
        return [it for (x, y, pop), id in both for it in (f'insert p ({x} {y}), "n", {pop}', f"delete p {id}")]


def watch(pid: int, peak: list[float]) -> None:
    """Keeps the peak memory of a process in MiB (what `wait4` tells of it counts this program too)."""
    try:
        while True:
            with open(f"/proc/{pid}/status", encoding="utf-8") as file:
                peak[0] = next((int(it.split()[1]) / 1024 for it in file if it.startswith("VmHWM")), peak[0])
            time.sleep(0.01)
    except OSError:
        pass


def run(words: list[str], folder: str, lines: list[str]) -> tuple[float, float, float, list[str]]:
    """Seconds of the wall clock and of the processor, peak MiB, and the lines that came."""
    with tempfile.TemporaryFile() as script, tempfile.TemporaryFile() as out:
        script.write("".join(f"{line}\n" for line in lines).encode())
        script.seek(0)
        start = time.monotonic()
        program = subprocess.Popen(words, stdin=script, stdout=out, cwd=folder)
        peak = [0.0]
        threading.Thread(target=watch, args=(program.pid, peak), daemon=True).start()
        _, _, used = os.wait4(program.pid, 0)
        took = time.monotonic() - start
        out.seek(0)
        return took, used.ru_utime + used.ru_stime, peak[0], out.read().decode().splitlines()


def counted(lines: list[str]) -> list[str]:
    """The same rows through a cursor, with its `stats`."""
    found = []
    for line in lines:
        _, count, plan = line.split(" ", 2)
        found += [f"open c = {plan}", f"next c {count}", "stats c", "close c"]
    return found


def main() -> None:
    asked = argparse.ArgumentParser(description=__doc__, formatter_class=argparse.RawDescriptionHelpFormatter)
    asked.add_argument("--size", type=int, default=100_000)
    asked.add_argument("--set", choices=("uniform", "clustered"), default="clustered")
    asked.add_argument("--frames", type=int, default=4096)
    asked.add_argument("--repeat", type=int, default=3)
    asked.add_argument("--program", default=PROGRAM)
    asked.add_argument("works", nargs="*", default=WORKS)
    asked = asked.parse_args()
    words = [os.path.abspath(asked.program), "--frames", str(asked.frames)]
    with tempfile.TemporaryDirectory() as folder:
        data = Data(folder, asked.size, asked.set)
        print(f"{asked.size:,} {asked.set} rows, {asked.frames} frames, least of {asked.repeat} runs")
        print(f"{'work':<11}{'wall s':>9}{'processor s':>13}{'lines':>11}{'visits':>10}{'peak MiB':>10}")
        for work in asked.works:
            lines = [] if work == "build" else data.queries(work)
            load = data.load(work) + data.before(work)
            least = [float("inf"), float("inf")]
            for _ in range(asked.repeat):
                base = run(words, folder, load[:1] if work == "build" else load)
                full = run(words, folder, load + lines)
                least = [min(old, new) for old, new in zip(least, (full[0] - base[0], full[1] - base[1]))]
            visits = ""
            if lines and lines[0].startswith("show"):
                stats = [it.split() for it in run(words, folder, load + counted(lines))[3] if it.startswith("blocks ")]
                visits = f"{sum(int(it[1]) + int(it[3]) for it in stats):,}"
            print(f"{work:<11}{least[0]:>9.3f}{least[1]:>13.3f}{len(full[3]) - len(base[3]):>11,}{visits:>10}{full[2]:>10.1f}", flush=True)


if __name__ == "__main__":
    main()
