#!/usr/bin/env python3
"""Runs the built program over scripts and prints lines per second and peak memory. It gives no verdict.

  bench/measure.py            points and segments: inserts, and rankings of 10 rows
  bench/measure.py FILE..     these scripts
"""
import os
import subprocess
import sys
import tempfile
import time

HERE = os.path.dirname(os.path.abspath(__file__))
PROGRAM = os.path.join(HERE, "..", "crates", "sand_shell", "out", "sand_shell")


def measure(name: str, path: str) -> None:
    with open(path, "rb") as script:
        lines = script.read().count(b"\n")
    with open(path, "rb") as script, open(os.devnull, "wb") as nowhere:
        start = time.monotonic()
        program = subprocess.Popen([PROGRAM], stdin=script, stdout=nowhere)
        _, status, used = os.wait4(program.pid, 0)
        took = time.monotonic() - start
    print(
        f"{name}: {lines} lines in {took:.2f} s, {lines / took:,.0f} lines a second, "
        f"peak {used.ru_maxrss / 1024:.1f} MiB, status {os.waitstatus_to_exitcode(status)}"
    )


def made(kind: str, inserts: int, rankings: int) -> None:
    with tempfile.NamedTemporaryFile() as script:
        words = [sys.executable, os.path.join(HERE, "rows.py"), kind, str(inserts), str(rankings)]
        subprocess.run(words, stdout=script, check=True)
        measure(f"{inserts} {kind}s, {rankings} rankings", script.name)


if not os.access(PROGRAM, os.X_OK):
    sys.exit("bench: build the program first (make run)")
if len(sys.argv) > 1:
    for path in sys.argv[1:]:
        measure(path, path)
else:
    made("point", 50_000, 0)
    made("point", 100_000, 0)
    made("point", 200_000, 0)
    made("point", 200_000, 20)
    made("point", 100_000, 20)
    made("segment", 50_000, 20)
    made("segment", 100_000, 20)
