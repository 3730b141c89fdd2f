"""What one program takes and what shards take, as tables in Markdown; `shards.py` measures it."""
from __future__ import annotations

from typing import Dict, Iterable, List, NamedTuple, Tuple


class Ranking(NamedTuple):
    """What a ranking takes: how many come a second, and the seconds of the processor of client, workers and programs for one."""
    rate: float
    client: float = 0.0
    workers: float = 0.0
    programs: float = 0.0


class Taken:
    """What one program takes, or shards do: seconds, megabytes, rankings a second, and milliseconds of a row."""

    def __init__(self) -> None:
        self.builds: List[float] = []
        self.loads: List[float] = []
        self.processor: List[float] = []
        self.memory = 0.0
        self.rankings: Dict[str, Ranking] = {}
        self.row: List[float] = []

    def asked(self, way: str, ranking: Ranking) -> None:
        """Keeps the best of some repeats."""
        if way not in self.rankings or ranking.rate > self.rankings[way].rate:
            self.rankings[way] = ranking

    def rows(self, times: List[float]) -> None:
        self.row = [min(pair) for pair in zip(self.row or times, times)]


def shown(number: float | None) -> str:
    """A cell of a table."""
    if number is None:
        return ""
    return f"{number:,.0f}" if abs(number) >= 20 else f"{number:.1f}" if abs(number) >= 2 else f"{number:.2f}"


def table(heads: Iterable[str], rows: Iterable[Tuple[str, List[float | None]]]) -> None:
    """Prints a table in Markdown."""
    heads = list(heads)
    print(f"\n| {' | '.join(heads)} |\n|{'---|' * len(heads)}")
    for head, cells in rows:
        print(f"| {head} | {' | '.join(map(shown, cells))} |".replace("|  |", "| |"))


def best(taken: Taken | None, times: str) -> float | None:
    """The least of some times."""
    return min(getattr(taken, times)) if taken and getattr(taken, times) else None


def tables(sizes: Dict[int, Taken], found: Dict[str, Taken], rows: int, shards: int, clients: int) -> None:
    """Prints what docs/SCALING.md shows."""
    one, names = found.get("one"), ["one", "single", "hash", "region"]
    all_taken = [found.get(name) for name in names]
    four = f"{shards} by"
    table(["Rows", "load and index, s", "of a processor, s", "memory, MB"], [
        (f"{size:,}", [best(taken, "builds"), best(taken, "processor"), taken.memory]) for size, taken in sizes.items()])
    heads = ["one program", "one shard", f"{four} `Hash`", f"{four} `Region`"]

    def times(name: str) -> List[float | None]:
        first = best(one, name)
        return [None, *(first / took if first and took else None for took in (best(taken, name) for taken in all_taken[1:]))]

    def added(way: int) -> List[float | None]:
        return [None, *(taken.row[way] - one.row[way] if taken and one else None for taken in all_taken[1:])]
    table([f"{rows:,} points", *heads], [
        ("load and index, seconds of the clock", [best(taken, "builds") for taken in all_taken]),
        ("so many times as fast", times("builds")),
        ("of these for the load", [best(taken, "loads") for taken in all_taken]),
        ("load and index, seconds of a processor", [best(taken, "processor") for taken in all_taken]),
        ("so many times as fast where processors are free", times("processor")),
        ("memory of each program, MB", [taken.memory if taken else None for taken in all_taken]),
        ("milliseconds that the merge adds to a row of a ranking, rows asked for one by one", added(0)),
        ("the same by `take(1000)`", added(1)), ("the same with `most=64`", added(2))])
    if any(taken and taken.rankings for taken in all_taken[1:]):
        ranking_tables(all_taken, heads, clients)


def ranking_tables(all_taken: List[Taken | None], heads: List[str], clients: int) -> None:
    """Prints what rankings take; one program's are all pulled by a `first`."""
    one = all_taken[0]
    baseline = {"first": "first", "firsts": "first", "filtered": "filtered"}
    told = {"first": "each by a `first`", "firsts": "a client's all by one `firsts`", "filtered": "filtered, one row in a thousand passes"}
    rates: List[Tuple[str, List[float | None]]] = []
    for way, text in told.items():
        ranked = [taken.rankings.get(way) if taken else None for taken in all_taken]
        whole = one.rankings[baseline[way]].rate if one else None
        rates.append((text, [row.rate if row else None for row in ranked]))
        rates.append(("so many times as many", [None, *(row.rate / whole if row and whole else None for row in ranked[1:])]))
    table([f"Rankings a second, pulled by {clients} clients", "one program, by one", *heads[1:]], rates)
    ranked = [taken.rankings.get("first" if taken is one else "firsts") if taken else None for taken in all_taken]
    table(["Microseconds of a processor, a ranking by `firsts`", "one program, by `first`", *heads[1:]], [
        (part, [getattr(row, part) * 1e6 if row else None for row in ranked]) for part in Ranking._fields[1:]] + [
        ("all", [sum(row[1:]) * 1e6 if row else None for row in ranked])])
