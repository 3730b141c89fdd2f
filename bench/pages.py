#!/usr/bin/env python3
"""Times quadtrees, files and searches in pages, and a pool of 10,000 pages, by processor time. It gives no verdict.

  bench/pages.py [ROWS]     (after `rt run` in crates/benches, which builds it; 100,000 rows are the default)
  bench/pages.py pool       (the pool alone)
"""
import os
import subprocess
import sys

PROGRAM = os.path.join(os.path.dirname(os.path.abspath(__file__)), "..", "crates", "benches", "out", "benches")
if not os.access(PROGRAM, os.X_OK):
    sys.exit("bench: build the program first (rt run in crates/benches)")


def run(part: str, count: int) -> tuple[float, list[int], int]:
    """The processor time of one run, the numbers that it printed, and the most memory that it held, in KiB."""
    program = subprocess.Popen([PROGRAM, "pages", part, str(count)], stdout=subprocess.PIPE, text=True)
    said = program.stdout.read()
    _, status, used = os.wait4(program.pid, 0)
    numbers = [int(word) for word in said.split() if word.isdigit()]
    if status != 0 or not numbers:
        sys.exit(f"bench: {part} ended with {status}: {said.strip()}")
    return used.ru_utime + used.ru_stime, numbers, used.ru_maxrss


def seconds(part: str, count: int) -> tuple[float, int, int]:
    """The same with the first number alone."""
    took, numbers, held = run(part, count)
    return took, numbers[0], held


def each(part: str, calls: int) -> tuple[float, int, int]:
    """The seconds of one call of a pool, the least of three runs without what comes before the first call; how many calls of the disk all
    took together; and the most memory that was held, in KiB."""
    before = min(run(part, 0)[0] for _ in range(3))
    runs = [run(part, calls) for _ in range(3)]
    for _, (right, _), _ in runs:
        if right != calls:
            sys.exit(f"bench: {part}: {calls - right} calls went wrong")
    took, (_, of_disk), held = min(runs)
    return (took - before) / calls, of_disk, held


hits, misses, puts, digests = 10_000_000, 200_000, 100_000, 200_000
hit, of_disk, held = each("hits", hits)
print(f"{hits} gets of pages in 4096 frames, of 10000 pages: {hit * 1e9:.0f} ns each, {1 / hit:.0f} a second, {of_disk} calls of the disk, {held / 1024:.0f} MiB")
digest, _, _ = each("digests", digests)
print(f"{digests} digests of a page: {digest * 1e6:.2f} us each")
miss, of_disk, held = each("misses", misses)
print(f"{misses} gets of 10000 pages over 16 frames: {miss * 1e6:.2f} us each, {1 / miss:.0f} a second, {of_disk} calls of the disk, {held / 1024:.0f} MiB; {miss / digest:.2f} digests")
put, of_disk, _ = each("puts", puts)
print(f"{puts} commands that put one page: {put * 1e6:.2f} us each, {1 / put:.0f} a second, {of_disk} calls of the disk; {put / digest:.2f} digests")
if sys.argv[1:] == ["pool"]:
    sys.exit()

rows = int(sys.argv[1]) if len(sys.argv) > 1 else 100_000
tree, listings, held = seconds("tree", rows)
print(f"{rows} points into a quadtree: {tree / rows * 1e6:.1f} us each, {listings} listings, {held / 1024:.0f} MiB")
took, ids, _ = seconds("look", rows)
print(f"{rows} leaves looked at: {(took - tree) / rows * 1e6:.1f} us each, {ids / rows:.1f} ids each")
took, visited, _ = seconds("rank", rows)
print(f"1000 rankings of ten rows: {(took - tree) / 1000 * 1e6:.0f} us each, {visited / 1000:.1f} blocks each")
few = max(rows // 10, 1)
sides, _, _ = seconds("tree", few)
took, visited, held = seconds("join", few)
print(f"10 joins of {few} points and as many shapes, 100 pairs each: {took:.1f} s with both trees, {visited / 10:.0f} pairs of blocks each, {held / 1024:.0f} MiB")
took, visited, held = seconds("semi", few)
print(f"the semi-join of {few} points and as many shapes: {took:.1f} s with both trees, {visited} pairs of blocks, {held / 1024:.0f} MiB")
put, _, held = seconds("put", rows)
print(f"{rows} rows put: {put / rows * 1e6:.1f} us each, {held / 1024:.0f} MiB")
took, there, _ = seconds("fetch", rows)
print(f"{there} rows fetched at random: {(took - put) / rows * 1e6:.1f} us each")
