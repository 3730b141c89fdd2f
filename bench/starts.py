#!/usr/bin/env python3
"""Prints how long a start over a journal takes, beside the run that wrote it and the same run without. It gives no verdict.

  bench/starts.py [--program FILE] [--sizes N,N..] [--repeat N] [--folder FOLDER]

For each size a script loads so many rows by one `load` and indexes their points, and another inserts as many rows, each by a
statement (sizes above 100,000 are left out there). Each is run without a journal and with one; then a run with an empty
script starts over the journal. What is printed are seconds of the processor, the least of some repeats, and the journal's bytes.
"""
import argparse
import os
import random
import subprocess
import tempfile

HERE = os.path.dirname(os.path.abspath(__file__))
PROGRAM = os.path.join(HERE, "..", "crates", "sand_shell", "out", "sand_shell")
LAST = (1 << 20) - 1
CREATE = "create p (at point, name text, pop int)\n"


def seconds(words: list[str], folder: str, script: str) -> float:
    """Seconds of the processor that a run of the script takes."""
    with open(os.path.join(folder, "script"), "w+", encoding="utf-8") as file:
        file.write(script)
        file.seek(0)
        run = subprocess.Popen(words, stdin=file, stdout=subprocess.DEVNULL, cwd=folder)
        _, status, used = os.wait4(run.pid, 0)
    assert status == 0, f"a run ended with {status}"
    return used.ru_utime + used.ru_stime


def main() -> None:
    asked = argparse.ArgumentParser(description=__doc__, formatter_class=argparse.RawDescriptionHelpFormatter)
    asked.add_argument("--program", default=PROGRAM)
    asked.add_argument("--sizes", default="10000,100000,1000000")
    asked.add_argument("--repeat", type=int, default=3)
    asked.add_argument("--folder", help="where the journal lies, else a temporary folder")
    asked = asked.parse_args()
    plain = [os.path.abspath(asked.program), "--frames", "4096"]
    print(f"{'rows':>9} {'by':<8}{'without':>9}{'with':>9}{'start':>9}{'bytes':>12}")
    for size in map(int, asked.sizes.split(",")):
        draw = random.Random(size)
        rows = [(draw.randint(0, LAST), draw.randint(0, LAST), draw.randint(0, 9_999_999)) for _ in range(size)]
        with tempfile.TemporaryDirectory(dir=asked.folder) as folder:
            with open(os.path.join(folder, "points.csv"), "w", encoding="utf-8") as file:
                file.write("".join(f"({x} {y}),place {at},{pop}\n" for at, (x, y, pop) in enumerate(rows)))
            ways = {"load": CREATE + 'load p "points.csv"\nindex p.at\n'}
            if size <= 100_000:
                inserts = (f'insert p ({x} {y}), "place {at}", {pop}\n' for at, (x, y, pop) in enumerate(rows))
                ways["inserts"] = CREATE + "index p.at\n" + "".join(inserts)
            for way, script in ways.items():
                journal, least = os.path.join(folder, "city.sandj"), [float("inf")] * 3
                for _ in range(asked.repeat):
                    if os.path.exists(journal):
                        os.remove(journal)
                    kept = [*plain, "--journal", journal]
                    took = seconds(plain, folder, script), seconds(kept, folder, script), seconds(kept, folder, "")
                    least = [min(pair) for pair in zip(least, took)]
                shown = "".join(f"{it:>9.2f}" for it in least)
                print(f"{size:>9,} {way:<8}{shown}{os.path.getsize(journal):>12,}", flush=True)


main()
