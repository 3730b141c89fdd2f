#!/usr/bin/env python3
"""Times a map in pages beside one in memory: inserts, look-ups and the steps of a run, by processor time. It gives no verdict.

  bench/btree.py [LOTS]     (after `rt run` in crates/benches, which builds it; a lot is 50,000 keys and one command, and 4 is the default)
"""
import os
import subprocess
import sys

PROGRAM = os.path.join(os.path.dirname(os.path.abspath(__file__)), "..", "crates", "benches", "out", "benches")
if not os.access(PROGRAM, os.X_OK):
    sys.exit("bench: build the program first (rt run in crates/benches)")
lots = sys.argv[1] if len(sys.argv) > 1 else "4"


def seconds(place: str, part: str) -> tuple[float, int]:
    """The processor time of one run, and the calls that it counted."""
    program = subprocess.Popen([PROGRAM, "map", place, part, lots], stdout=subprocess.PIPE, text=True)
    said = program.stdout.read()
    _, status, used = os.wait4(program.pid, 0)
    if status != 0:
        sys.exit(f"bench: {place} {part} ended with {status}")
    return used.ru_utime + used.ru_stime, int(said.split()[0])


for place in ("pages", "memory"):
    filling, pairs = seconds(place, "insert")
    print(f"{place}: {pairs} inserts, {filling / pairs * 1e9:,.0f} ns each")
    for part, name in (("look", "look-ups"), ("run", "steps of a run")):
        took, calls = seconds(place, part)
        print(f"{place}: {calls} {name}, {(took - filling) / calls * 1e9:,.0f} ns each")
