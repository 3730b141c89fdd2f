#!/usr/bin/env python3
"""Times appends to a journal, the same writes and syncs by hand, and reading, by user time. It gives no verdict.

  bench/journal.py     (after `rt run` in crates/benches, which builds it)

Appends go over and over to a new tape of 500 records, so that no time goes to new pages of memory; a run over as many empty
tapes is taken off, and from reading that of its appends. There are eleven turns, in each of which every run has its turn; a
figure is the median, and a ratio that of the ratios of the turns.
"""
import os
import statistics
import subprocess
import sys

PROGRAM = os.path.join(os.path.dirname(os.path.abspath(__file__)), "..", "crates", "benches", "out", "benches")
TURNS = 11
BODY_BYTES = 109
RECORDS, TAPES = 500, 20_000
APPENDS = RECORDS * TAPES
READS, RUNS = 100_000, 10


def used(word, *numbers):
    """The user time of one run in seconds."""
    words = [word] + [str(number) for number in numbers]
    program = subprocess.Popen([PROGRAM, "journal"] + words, stdout=subprocess.PIPE, text=True)
    said = program.stdout.read()
    _, status, took = os.wait4(program.pid, 0)
    if status != 0 or not said.startswith(f"{numbers[0]} records"):
        sys.exit(f"bench: benches {words} ended with {status}: {said}")
    return took.ru_utime


def spread(values, digits):
    """The median, and the least and the greatest."""
    least, middle, most = (f"{value:.{digits}f}" for value in (min(values), statistics.median(values), max(values)))
    return f"{middle} ({least} to {most})"


if not os.access(PROGRAM, os.X_OK):
    sys.exit("bench: build the program first (rt run in crates/benches)")
hand, journal, ratios, rates = [], [], [], []
for turn in range(TURNS):
    order = ["hand", "journal"] if turn % 2 == 0 else ["journal", "hand"]
    took = {word: used(word, RECORDS, TAPES) - used(word, 0, TAPES) for word in order}
    hand.append(took["hand"] / APPENDS * 1e9)
    journal.append(took["journal"] / APPENDS * 1e9)
    ratios.append(took["journal"] / took["hand"])
    reading = sum(used("read", READS) - used("journal", READS, 1) for _ in range(RUNS))
    rates.append(RUNS * READS * BODY_BYTES / reading / 1e6)
print(f"an append: {spread(journal, 1)} ns by a journal, {spread(hand, 1)} by hand, {spread(ratios, 2)} times")
print(f"reading: {spread(rates, 0)} MB/s of bodies")
