#!/usr/bin/env python3
"""Runs the benchmark of the exact gaps and prints calls per second. It gives no verdict.

  bench/gaps.py      (after `rt run` in crates/benches, which builds it)
"""
import os
import subprocess
import sys
import time

PROGRAM = os.path.join(os.path.dirname(os.path.abspath(__file__)), "..", "crates", "benches", "out", "benches")
if not os.access(PROGRAM, os.X_OK):
    sys.exit("bench: build the program first (rt run in crates/benches)")
start = time.monotonic()
said = subprocess.run([PROGRAM, "gaps"], stdout=subprocess.PIPE, check=True, text=True).stdout
took = time.monotonic() - start
calls = int(said.split()[1])
print(f"{calls} mixed gap calls in {took:.2f} s, {calls / took:,.0f} calls a second")
