#!/usr/bin/env python3
"""Writes a script of inserts and rankings on standard output.

  bench/rows.py point|segment INSERTS RANKINGS [SEED]
"""
import random
import sys

WIDTH = 1 << 20


def main() -> None:
    kind, inserts, rankings = sys.argv[1], int(sys.argv[2]), int(sys.argv[3])
    draw = random.Random(int(sys.argv[4]) if len(sys.argv) > 4 else 1)
    write = sys.stdout.write

    def spot(x: int, y: int) -> str:
        return f"({x} {y})"

    def value() -> str:
        x, y = draw.randrange(WIDTH), draw.randrange(WIDTH)
        if kind == "point":
            return spot(x, y)
        return spot(x, y) + "-" + spot(min(WIDTH - 1, x + draw.randrange(4096)), min(WIDTH - 1, y + draw.randrange(4096)))

    write(f"create r (a {kind})\nindex r.a\n")
    for _ in range(inserts):
        write(f"insert r {value()}\n")
    for _ in range(rankings):
        write(f"show 10 rank r.a from {spot(draw.randrange(WIDTH), draw.randrange(WIDTH))}\n")


main()
