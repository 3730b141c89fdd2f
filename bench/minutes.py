#!/usr/bin/env python3
"""minutes.py: how many processor minutes each crate costs the gate, dearest first, as a Markdown table.

  bench/minutes.py                  all from nothing: rt ci --anew over a clone of HEAD in a temporary folder
  bench/minutes.py -- COMMAND ..    a command of your own, run here
  bench/minutes.py --pid N          what runs below process N, until it ends or Ctrl-C is pressed

It looks at /proc every half second. What a process used after the last look at it is counted once its parent has waited for
it, so the sums are exact; processes that end between the same two looks share that rest evenly. Under --pid what ended before
the first look isn't counted. What the command prints goes to stderr.
"""
import argparse
import collections
import contextlib
import glob
import os
import re
import subprocess
import sys
import tempfile
import time
from dataclasses import dataclass

KINDS = ("proofs", "tests", "edits", "programs")
EVERY = 0.5
TICKS = os.sysconf("SC_CLK_TCK")
Place = tuple[str, str]  # a crate and a kind
NOWHERE: Place = ("", "")  # the tool itself, and scripts
Key = tuple[int, str]  # a process's number and when it started, since a number is given again


@dataclass
class Used:
    """What a process, and the children that it has waited for, used so far, in ticks."""

    parent: int
    own: int
    children: int
    place: Place = NOWHERE


def text(path: str) -> str:
    """Returns what a file of /proc says, nothing where its process has ended."""
    with contextlib.suppress(OSError), open(path, encoding="utf-8", errors="replace") as file:
        return file.read()
    return ""


def place_of(pid: int, above: Place) -> Place:
    """Returns what a process works for: by its own words, or what the one above works for, or by the folder that it runs in."""
    words, folder = text(f"/proc/{pid}/cmdline").split("\0"), ""
    with contextlib.suppress(OSError):
        folder = os.readlink(f"/proc/{pid}/cwd")
    if "--crate-name" in words[:-1]:
        crate = words[words.index("--crate-name") + 1]
        # (an edit, and the check that a crate's edits begin with, runs in a copy of the crate's folder)
        if os.path.basename(folder).startswith("rt-edit-"):
            return crate, "edits"
        return crate, "tests" if "--test" in words else "programs" if "--crate-checked" in words else "proofs"
    # (a program runs from the crate's folder, or as a copy outside the repository)
    runs = [re.fullmatch(r"(?:.*/)?(?:rt-run-[^/]+/bin|crates/\w+/out)/(\w+?)(_tests)?", word) for word in words]
    for run in filter(None, runs):
        return run[1], "tests" if run[2] else "programs"
    inside = re.fullmatch(r".*/crates/(\w+)", folder)
    if above != NOWHERE or not inside:
        return above
    links = os.path.basename(words[0]) == "rattle-link"
    return inside[1], "proofs" if not links else "tests" if any(word.endswith("_tests.o") for word in words) else "programs"


class Meter:
    """Adds up what the processes from a root downwards use, by place."""

    def __init__(self, root: int) -> None:
        self.root, self.is_first = root, True
        self.seen: dict[Key, Used] = {}
        self.spent: collections.Counter[Place] = collections.Counter()

    def below(self) -> dict[Key, Used]:
        """Returns the processes from the root downwards, each behind its parent; one whose parent has ended stays."""
        found: dict[Key, Used] = {}
        left = [self.root, *(pid for pid, _ in self.seen)]
        for pid in left:
            fields = text(f"/proc/{pid}/stat").rpartition(")")[2].split()
            key = (pid, fields[19] if fields else "")
            # (a number seen before may be another process's by now)
            if fields and key not in found and (key in self.seen or pid == self.root or int(fields[1]) in {at for at, _ in found}):
                found[key] = Used(int(fields[1]), int(fields[11]) + int(fields[12]), int(fields[13]) + int(fields[14]))
                left += [int(child) for path in glob.glob(f"/proc/{pid}/task/*/children") for child in text(path).split()]
        return found

    def look(self) -> None:
        """Counts what was used since the last look."""
        now = self.below()
        for _ in range(9):
            # (once more where one ended meanwhile: its parent may have been read before that, and others after)
            before, now = now, self.below()
            if {key: it.children for key, it in before.items()} == {key: it.children for key, it in now.items()}:
                break
        ended: dict[int, list[Key]] = collections.defaultdict(list)
        for key, it in self.seen.items():
            if key not in now:
                ended[it.parent].append(key)

        def counted(key: Key) -> int:
            """Returns what was counted of a process that ended, with those that ended below it."""
            return self.seen[key].own + self.seen[key].children + sum(counted(each) for each in ended[key[0]])

        for key, it in now.items():
            last = self.seen.get(key, Used(it.parent, 0, it.children if self.is_first else 0))
            above = next((each.place for (pid, _), each in now.items() if pid == it.parent), last.place)
            it.place = place_of(key[0], above)
            self.spent[it.place] += it.own - last.own if key[0] != os.getpid() else 0
            rest = it.children - last.children - sum(counted(each) for each in ended[key[0]])
            for place in (places := [self.seen[each].place for each in ended[key[0]]] or [it.place]):
                self.spent[place] += rest / len(places)
        self.seen, self.is_first = now, False


def table(spent: dict[Place, float], took: float) -> str:
    """Returns the table of the minutes by crate, with their sums."""
    minutes = {place: ticks / TICKS / 60 for place, ticks in spent.items()}
    crates = {crate: [minutes.get((crate, kind), 0) for kind in KINDS] for crate, _ in minutes if crate}
    rows = sorted(crates.items(), key=lambda row: (-sum(row[1]), row[0]))
    rows.append(("all crates", [sum(row[at] for _, row in rows) for at in range(len(KINDS))]))
    lines = [f"| Crate | {' | '.join(KINDS)} | all |", "|---|" + "---:|" * (len(KINDS) + 1)]
    lines += [f"| {name} | {' | '.join(f'{each:.1f}' for each in [*row, sum(row)])} |" for name, row in rows]
    return "\n".join(lines) + f"\n\nThe tool and scripts: {minutes.get(NOWHERE, 0):.1f} minutes more. By the clock: {took / 60:.1f}."


def main() -> None:
    reader = argparse.ArgumentParser(description=__doc__, formatter_class=argparse.RawDescriptionHelpFormatter)
    reader.add_argument("--pid", type=int, metavar="N", help="a process that runs already")
    reader.add_argument("command", nargs="*", help="what to run in place of rt ci --anew, behind --")
    said, start = reader.parse_args(), time.monotonic()
    with tempfile.TemporaryDirectory(prefix="minutes-") as room:
        words = said.command or ["sh", "-c", 'git clone -q . "$0" && cd "$0" && exec rt ci --anew', f"{room}/repository"]
        command = None if said.pid else subprocess.Popen(words, stdin=subprocess.DEVNULL, stdout=sys.stderr)
        meter = Meter(said.pid or os.getpid())
        with contextlib.suppress(KeyboardInterrupt):
            while (command.poll() is None) if command else os.path.isdir(f"/proc/{said.pid}"):
                meter.look()
                time.sleep(EVERY)
            meter.look()
        print(table(meter.spent, time.monotonic() - start))
        sys.exit(command.wait() if command else 0)


main()
