#!/usr/bin/env python3
"""Kills the program while it keeps a journal, starts it again, and compares what is there with what was answered.

  bench/kills.py [--program FILE] [--rounds N] [--seed N] [--folder FOLDER]

Each round starts the program over the journal that the rounds before left, sends it changes drawn at random (rows inserted
and deleted, relations created, files loaded, indexes made), and kills it with SIGKILL at a random moment. A second run then
shows all rows, and the next id of each relation by a row more. They have to be those after some number of the changes sent, at least as many as were answered: answers
are gathered before they are written, so changes may be kept whose answers nobody saw. It ends with 0 where all rounds agree.
"""
import argparse
import os
import random
import subprocess
import sys
import tempfile
import threading
import time

HERE = os.path.dirname(os.path.abspath(__file__))
PROGRAM = os.path.join(HERE, "..", "crates", "sand_shell", "out", "sand_shell")
LAST = (1 << 20) - 1


class Rows:
    """The relations as the changes so far leave them: each a next id and its rows by id, and which have an index."""

    def __init__(self) -> None:
        self.next: dict[str, int] = {}
        self.rows: dict[str, dict[int, str]] = {}
        self.indexed: set[str] = set()

    def copy(self) -> "Rows":
        other = Rows()
        other.next, other.indexed = dict(self.next), set(self.indexed)
        other.rows = {name: dict(rows) for name, rows in self.rows.items()}
        return other

    def lines(self, names: list[str]) -> list[str]:
        """What a second run prints, asked for these relations."""
        found = []
        for name in names:
            if name not in self.rows:
                found += ["refused 8 UnknownRelation", "refused 8 UnknownRelation", "refused 21 UnknownCursor", "refused 8 UnknownRelation"]
                continue
            found += [f"{id}\t{row}" for id, row in sorted(self.rows[name].items())] + ["end"]
            found += ["ok", "ok"] if name in self.indexed else ["refused 13 NoIndex", "refused 21 UnknownCursor"]
            found.append(f"id {self.next[name]}")
        return found

    def insert(self, name: str, row: str) -> None:
        self.rows[name][self.next[name]] = row
        self.next[name] += 1

    def carry(self, change: tuple) -> str:
        """Carries a change out, and gives the line that answers it."""
        what, name = change[:2]
        if what == "create":
            self.next[name], self.rows[name] = 1, {}
        elif what == "index":
            self.indexed.add(name)
        elif what == "insert":
            self.insert(name, change[2])
            return f"id {self.next[name] - 1}"
        elif what == "delete":
            del self.rows[name][change[2]]
        elif what == "load":
            for row in change[2]:
                self.insert(name, row)
            return f"loaded {len(change[2])}"
        return "ok"


def row_text(draw: random.Random) -> tuple[str, str]:
    """A row as its values in a statement, and as it is printed."""
    x, y, n = draw.randint(0, LAST), draw.randint(0, LAST), draw.randint(-9, 10**6)
    return f"({x} {y}), {n}", f"({x} {y})\t{n}"


class Changes:
    """Changes drawn at random, each with its statement, over relations as they will be."""

    def __init__(self, folder: str, seed: int, start: Rows) -> None:
        self.folder, self.draw, self.ahead, self.files = folder, random.Random(seed), start.copy(), 0

    def change(self) -> tuple[str, tuple]:
        draw, names = self.draw, sorted(self.ahead.rows)
        if len(names) < 3 or (len(names) < 40 and draw.random() < 0.002):
            name = f"r{len(names)}"
            return f"create {name} (at point, n int)", ("create", name)
        name = draw.choice(names)
        if name not in self.ahead.indexed and draw.random() < 0.02:
            return f"index {name}.at", ("index", name)
        if draw.random() < 0.01:
            self.files += 1
            rows = [row_text(draw) for _ in range(draw.randint(0, 30))]
            path = os.path.join(self.folder, f"load{self.files}.csv")
            with open(path, "w", encoding="utf-8") as file:
                file.write("".join(row.replace(", ", ",") + "\n" for row, _ in rows))
            return f'load {name} "{path}"', ("load", name, [shown for _, shown in rows])
        if self.ahead.rows[name] and draw.random() < 0.3:
            id = draw.choice(sorted(self.ahead.rows[name])[:50])
            return f"delete {name} {id}", ("delete", name, id)
        values, shown = row_text(draw)
        return f"insert {name} {values}", ("insert", name, shown)

    def next(self) -> tuple[str, tuple]:
        statement, change = self.change()
        self.ahead.carry(change)
        return statement, change


def killed(program: str, journal: str, statements: list[str], wait: float) -> list[str]:
    """The answers that a run gave before it was killed, so many seconds behind its first change (at the latest a second behind its
    start). A last line without its end is left out."""
    before = os.path.getsize(journal) if os.path.exists(journal) else 1
    run = subprocess.Popen([program, "--journal", journal], stdin=subprocess.PIPE, stdout=subprocess.PIPE)
    assert run.stdin and run.stdout

    def send() -> None:
        try:
            for at in range(0, len(statements), 20):
                run.stdin.write("".join(f"{it}\n" for it in statements[at : at + 20]).encode())
                run.stdin.flush()
                time.sleep(0.001)
        except OSError:
            pass

    def kill() -> None:
        for _ in range(1_000):
            if os.path.exists(journal) and os.path.getsize(journal) > before:
                break
            time.sleep(0.001)
        time.sleep(wait)
        run.kill()

    threading.Thread(target=send, daemon=True).start()
    threading.Thread(target=kill, daemon=True).start()
    text = run.stdout.read().decode()
    run.wait()
    return text.split("\n")[:-1]


def found(program: str, journal: str, names: list[str]) -> list[str]:
    """What a new run prints, asked for these relations: all rows of each, whether it has an index, and the id of one row more, which it inserts."""
    show, look = "show 1000000 fetch (scan {0}) 1.at, 1.n\n", "open c = rank {0}.at from (0 0)\nclose c\n"
    script = "".join((show + look + "insert {0} (0 0), 0\n").format(name) for name in names)
    run = subprocess.run([program, "--journal", journal], input=script.encode(), stdout=subprocess.PIPE)
    if run.returncode not in (0, 1):
        sys.exit(f"kills: a start ended with {run.returncode}")
    return run.stdout.decode().split("\n")[:-1]


def main() -> None:
    asked = argparse.ArgumentParser(description=__doc__, formatter_class=argparse.RawDescriptionHelpFormatter)
    asked.add_argument("--program", default=PROGRAM)
    asked.add_argument("--rounds", type=int, default=200)
    asked.add_argument("--seed", type=int, default=round(time.time()))
    asked.add_argument("--folder", help="where the journal lies; a folder in memory lets more changes through a round")
    asked = asked.parse_args()
    program, draw, answers, kept = os.path.abspath(asked.program), random.Random(asked.seed), 0, 0
    with tempfile.TemporaryDirectory(dir=asked.folder) as folder:
        journal, rows = os.path.join(folder, "city.sandj"), Rows()
        for round_ in range(asked.rounds):
            changes = Changes(folder, draw.getrandbits(32), rows)
            sent = [changes.next() for _ in range(2_000)]
            given = killed(program, journal, [statement for statement, _ in sent], draw.choice((0, draw.uniform(0, 0.01), draw.uniform(0, 0.1))))
            names = sorted(changes.ahead.rows)
            there = found(program, journal, names)
            # the changes that were answered, each with its own line, and then the fewest more that give what is there
            done = 0
            while done < len(given):
                wanted = rows.carry(sent[done][1])
                if given[done] != wanted:
                    sys.exit(f"kills: seed {asked.seed}, round {round_}: answered {given[done]!r} and not {wanted!r}")
                done += 1
            answers += done
            while rows.lines(names) != there:
                if done == len(sent):
                    sys.exit(f"kills: seed {asked.seed}, round {round_}: what is there is what no number of changes leaves")
                rows.carry(sent[done][1])
                done += 1
            kept += done
            for name in names:
                if name in rows.rows:
                    rows.insert(name, "(0 0)\t0")
    print(f"{asked.rounds} rounds, {kept:,} changes kept, {answers:,} of them answered")


main()
