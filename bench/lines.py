#!/usr/bin/env python3
"""Times the reading of the lines of a large workload, by processor time. It gives no verdict.

  bench/lines.py [SIZE]     (after `rt run` in crates/benches, which builds it; 100,000 is the default)
"""
import os
import subprocess
import sys

PROGRAM = os.path.join(os.path.dirname(os.path.abspath(__file__)), "..", "crates", "benches", "out", "benches")
if not os.access(PROGRAM, os.X_OK):
    sys.exit("bench: build the program first (rt run in crates/benches)")
size = sys.argv[1] if len(sys.argv) > 1 else "100000"
program = subprocess.Popen([PROGRAM, "lines", size], stdout=subprocess.PIPE, text=True)
said = program.stdout.read()
_, status, used = os.wait4(program.pid, 0)
if status != 0:
    sys.exit(f"bench: benches ended with {status}")
lines = int(said.split()[0])
took = used.ru_utime + used.ru_stime
print(f"{lines} lines read in {took:.2f} s: {took / lines * 1e9:,.0f} ns each, {used.ru_maxrss / 1024:.0f} MiB")
