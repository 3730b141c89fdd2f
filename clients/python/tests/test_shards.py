"""Runs real programs on a cluster of this machine; where Dask or the program isn't there, each test is skipped.

SHARD_SCRIPTS is how many random scripts are compared with one program (40 where it isn't set).
"""
from __future__ import annotations

import gc
import importlib
import logging
import os
import pickle
import random
import signal
import subprocess
import sys
import tempfile
import threading
import time
import unittest
from fractions import Fraction
from pathlib import Path
from typing import Any, Callable, Dict, List, NamedTuple, Optional, Sequence, Tuple, Union

sys.path.insert(0, str(Path(__file__).resolve().parents[1]))
from sand import NoProgram, Point, Polygon, Refused, Row, Sand, Segment, find_program  # noqa: E402

MISSING = ""
try:
    find_program()
    from sand.shards import (Changed, Copied, Hash, KeyedRow, NotSpread, Progress, Region, ShardLost, ShardRefused, Shards,
                             Spread, quarters)
    from sand.shards.journals import Catalogue, locked
    from sand.shards.parts import split_any, split_plain
    from sand.shards.plans import Gap, NoPlan, Place, form
    from sand.shards.regions import WIDTH, Box
    from sand.shards.rows import Printed, Reading, lines_of
    from sand.shards.spread import Homes, Relation
    distributed: Any = importlib.import_module("distributed")
except (ImportError, NoProgram) as missing:
    MISSING = str(missing)

SCRIPTS = int(os.environ.get("SHARD_SCRIPTS", "40"))
COUNTS = (1, 2, 4, 7)
WORKERS = 3
cluster: Any = None
client: Any = None


def setUpModule() -> None:
    global cluster, client
    if MISSING:
        return
    cluster = distributed.LocalCluster(n_workers=WORKERS, threads_per_worker=1, processes=True, dashboard_address=":0",
                                       silence_logs=logging.CRITICAL)
    client = distributed.Client(cluster, direct_to_workers=True)


def tearDownModule() -> None:
    if not MISSING:
        client.close()
        cluster.close()


class Question(NamedTuple):
    """A plan, what its rows come by before their keys, told of a row of one program, and the relations of its ids."""
    plan: str
    order: Callable[[Row], Tuple[Any, ...]]
    relations: Tuple[str, ...]


def by_nothing(row: Row) -> Tuple[Any, ...]:
    return ()


def by_gap(row: Row) -> Tuple[Any, ...]:
    return (row.gap,)


def by_far(row: Row) -> Tuple[Any, ...]:
    return (-(row.gap or 0),)


def by_value(row: Row) -> Tuple[Any, ...]:
    return (row.values[-1],)


def by_value_and_gap(row: Row) -> Tuple[Any, ...]:
    return (row.values[-1], row.gap)


class OneProgram:
    """One program that is told the same, and the keys of its ids."""

    def __init__(self) -> None:
        self.db = Sand()
        self.keys: Dict[str, Dict[int, Any]] = {}
        self.ids: Dict[str, Dict[Any, int]] = {}

    def create(self, statement: str, relation: str) -> None:
        self.db.tell(statement)
        self.keys[relation], self.ids[relation] = {}, {}

    def insert(self, relation: str, *values: Any) -> None:
        number = self.db.insert(relation, *values)
        self.keys[relation][number], self.ids[relation][values[0]] = values[0], number

    def load(self, relation: str, rows: Sequence[Sequence[Any]]) -> None:
        for row in sorted(rows, key=lambda row: str(row[0]) if isinstance(row[0], str) else row[0]):
            self.insert(relation, *row)

    def delete(self, relation: str, key: Any) -> None:
        self.db.tell(f"delete {relation} {self.ids[relation].pop(key)}")

    def answer(self, asked: Question) -> List[Tuple[Any, ...]]:
        """The whole answer by its order and then by keys: gap, keys, values."""
        if asked.plan.startswith("far "):
            lines = self.db.ask(f"far 1000 {asked.plan[4:]}")[:-1]
            rows = [Row(Fraction(line.split("\t")[0]), [int(line.split("\t")[1])], []) for line in lines]
        else:
            rows = list(self.db.rows(asked.plan))
        keyed = [(asked.order(row), tuple(self.keys[name][number] for name, number in zip(asked.relations, row.ids)), row)
                 for row in rows]
        return [(row.gap, keys, row.values) for _, keys, row in sorted(keyed, key=lambda parts: parts[:2])]


class Script:
    """A random script: two relations, their rows and changes, and questions."""

    def __init__(self, seed: int) -> None:
        self.draw = random.Random(seed)
        self.a, self.b = f"a{seed}", f"b{seed}"
        self.texts_are_keys = self.draw.random() < 0.3
        self.step = self.draw.choice([1, 7000, 34952])
        self.b_kind = self.draw.choice(["point", "segment", "polygon"])
        self.margin = self.draw.choice([0, 2 * self.step, 70000])
        lefts: List[Spread] = [Hash("k"), Region("k", "at"), Region("k", "at", self.margin), Copied("k")]
        rights: List[Spread] = [Copied("k"), Copied("k"), Region("k", "shape", self.margin), Hash("k")]
        self.left, self.right = self.draw.choice(lefts), self.draw.choice(rights)
        self.grows = self.draw.random() < 0.5
        self.spent = 0

    def key(self) -> Any:
        self.spent += 1
        number = self.spent if self.grows else (self.spent * 7919) % 10007 - 3000
        return f"k{number}, \"ü\"" if self.texts_are_keys else number

    def spot(self) -> Point:
        return Point(self.draw.randint(0, 29) * self.step, self.draw.randint(0, 29) * self.step)

    def shape(self, kind: str) -> Union[Point, Segment, Polygon]:
        if kind == "point":
            return self.spot()
        if kind == "segment":
            return Segment(self.spot(), self.spot())
        return Polygon((self.spot(), self.spot(), self.spot()))

    def rows(self, count: int, kind: str) -> List[Tuple[Any, ...]]:
        return [(self.key(), self.shape(kind), self.draw.randint(-3, 9), self.draw.choice("xyz")) for _ in range(count)]

    def run(self, one: OneProgram, many: Sequence[Shards]) -> List[Question]:
        """Makes relations and rows everywhere; what is to be asked."""
        key = "text" if self.texts_are_keys else "int"
        for name, column, kind, spread in ((self.a, "at", "point", self.left), (self.b, "shape", self.b_kind, self.right)):
            statement = f"create {name} (k {key}, {column} {kind}, n int, t text)"
            one.create(statement, name)
            rows = self.rows(self.draw.randint(0, 60 if name == self.a else 25), kind)
            single = self.rows(4, kind)
            gone = [row[0] for row in self.draw.sample(rows + single, min(3, len(rows)))]
            one.load(name, rows)
            indexes = [f"index {name}.{column}", f"rtree {name}.{column}", f"index {name}.n", f"index {name}.t"]
            for line in indexes:
                one.db.tell(line)
            for row in single:
                one.insert(name, *row)
            for number in gone:
                one.delete(name, number)
            for db in many:
                db.create(statement, spread)
                count = db.load(name, rows)
                assert count == len(rows), (count, len(rows))
                for line in indexes:
                    db.tell(line)
                for row in single:
                    db.insert(name, *row)
                for number in gone:
                    db.delete(name, number)
        return [self.question() for _ in range(6)]

    def question(self) -> Question:
        a, b, draw = self.a, self.b, self.draw
        within = f" within {draw.choice([0, self.step, 3 * self.step, 70000, 2000000])}" if draw.random() < 0.4 else ""
        goal = self.shape(draw.choice(["point", "point", "segment", "polygon"]))
        low, high = sorted((draw.randint(-4, 9), draw.randint(-4, 9)))
        (x1, x2), (y1, y2) = (sorted(pair) for pair in zip(self.spot(), self.spot()))
        one, column = (a, "at") if draw.random() < 0.7 else (b, "shape")
        singles = [
            (f"scan {one}", by_nothing), (f"rank {one}.{column} from {goal}{within}", by_gap),
            (f"near {one}.{column} from {goal}{within}", by_gap), (f"window {one}.{column} {x1} {y1} {x2} {y2}", by_gap),
            (f'pick {one}.t = "x"', by_nothing), (f"pick {one}.n = {low}", by_nothing),
            (f"fetch (pick {one}.n from {low} to {high}) 1.n", by_value), (f"sort (scan {one}) near 1.{column} from {goal}", by_gap),
            (f"fetch (sort (scan {one}) by 1.n) 1.{column}, 1.n", by_value),
            (f"fetch (sort (rank {one}.{column} from {goal}) by 1.n) 1.n", by_value_and_gap),
            (f"filter (rank {one}.{column} from {goal}) where 1.n > {low} and 1.t != \"y\"", by_gap),
            (f"fetch (filter (scan {one}) where 1.n <= {high}) 1.t, 1.n, 1.{column}", by_nothing),
            (f"far {one}.{column} from {self.spot()}", by_far)]
        pairs: List[Tuple[str, Any]] = []
        if isinstance(self.right, Copied):
            knn = draw.randint(1, 4)
            pairs = [(f"{word} {a}.at {b}.shape{within}", by_gap) for word in ("join", "semi", f"knn {knn}")]
            pairs += [(f"match (rank {a}.at from {goal}) 1.n = {b}.n", by_gap), (f"match (scan {a}) 1.t = {b}.t", by_nothing),
                      (f"filter (semi {a}.at {b}.shape) where 2.n > {low}", by_gap)]
        elif isinstance(self.left, Copied):
            pairs = [(f"join {a}.at {b}.shape{within}", by_gap), (f"match (scan {a}) 1.n = {b}.n", by_nothing)]
        elif isinstance(self.left, Region) and isinstance(self.right, Region):
            least = draw.choice([0, self.margin // 2, self.margin])
            pairs = [(f"{word} {a}.at {b}.shape within {least}", by_gap) for word in ("join", "semi", "knn 2")]
        if pairs and draw.random() < 0.5:
            return Question(*draw.choice(pairs), (a, b))
        return Question(*draw.choice(singles), (one,))


def kill_program(journal: str) -> int:
    """Kills the programs of this worker that have a journal; how many."""
    found = 0
    for process in filter(str.isdigit, os.listdir("/proc")):
        try:
            words = Path("/proc", process, "cmdline").read_bytes().split(b"\0")
            if journal.encode() in words and f"PPid:\t{os.getpid()}\n" in Path("/proc", process, "status").read_text():
                os.kill(int(process), signal.SIGKILL)
                found += 1
        except OSError:
            # it has ended
            pass
    return found


def set_enough(count: int) -> None:
    """Sets in a worker after how many bytes programs are started again."""
    importlib.import_module("sand.shards.shard").ENOUGH = count  # type: ignore[attr-defined]


def keyed(rows: Sequence[KeyedRow]) -> List[Tuple[Any, ...]]:
    return [(row.gap, row.keys, row.values) for row in rows]


@unittest.skipIf(MISSING, MISSING)
class Answers(unittest.TestCase):
    def test_answers_are_those_of_one_program(self) -> None:
        asked = rows = 0
        for begin in range(0, SCRIPTS, 25):
            one, many = OneProgram(), [Shards(client, count) for count in COUNTS]
            for seed in range(begin, min(SCRIPTS, begin + 25)):
                script = Script(seed)
                for question in script.run(one, many):
                    expected = one.answer(question)
                    asked += 1
                    rows += len(expected)
                    for db in many:
                        told = f"script {seed}, {len(db.regions.boxes)} shards, {script.left}, {script.right}: {question.plan}"
                        self.compare(db, question.plan, expected, script.draw, told)
            for db in many:
                db.close()
            one.db.close()
        print(f"shards: {SCRIPTS} scripts, {asked} plans, {rows} rows over {', '.join(map(str, COUNTS))} shards as of one program")

    def compare(self, db: Shards, plan: str, expected: List[Tuple[Any, ...]], draw: random.Random, told: str) -> None:
        count = draw.randint(1, 12)
        way = draw.randint(0, 5)
        if way == 0:
            self.assertEqual(keyed(list(db.rows(plan, most=64))), expected, told)
        elif way == 1:
            self.assertEqual(keyed(db.first(count, plan)), expected[:count], told)
        elif way == 2:
            self.assertEqual(keyed(db.first(count, plan, most=count)), expected[:count], told)
        elif way == 3:
            self.assertEqual([keyed(rows) for rows in db.firsts(count, [plan, plan])], 2 * [expected[:count]], told)
        elif way == 4 and not plan.startswith("far"):
            self.assertEqual(keyed(list(db.rows(f"first {count} ({plan})"))), expected[:count], told)
        else:
            with db.rows(plan, most=draw.choice([1, 3])) as cursor:
                got = cursor.take(count)
                got += [row for _, row in zip(range(3), cursor)]
                got += cursor.take(40)
            self.assertEqual(keyed(got), expected[:count + 43], told)


    def test_a_margin_reaches_as_far_as_it_says(self) -> None:
        with Shards(client, 4) as db:
            db.create("create p (k int, at point)", Region("k", "at", 10))
            half = WIDTH // 2
            self.assertEqual([db.insert("p", key, Point(half + away, 5)) for key, away in enumerate((-1, 9, 10))], [[0, 1], [1, 0], [1]])
            db.tell("index p.at")
            self.assertEqual([(row.gap, *row.keys) for row in db.rows("filter (join p.at p.at within 10) where 1.k = 0")],
                             [(0, 0, 0), (100, 0, 1)])
            self.assertEqual(len(list(db.rows("knn 3 p.at p.at within 10"))), 7)


@unittest.skipIf(MISSING, MISSING)
class Work(unittest.TestCase):
    def test_a_row_is_asked_for_when_it_may_be_the_next(self) -> None:
        draw = random.Random(5)
        rows = [(number, Point(draw.randrange(WIDTH), draw.randrange(WIDTH))) for number in range(400)]
        with Shards(client, 5) as db:
            spreads: Dict[str, Spread] = {"spread": Hash("k"), "placed": Region("k", "at")}
            for name, spread in spreads.items():
                db.create(f"create {name} (k int, at point)", spread)
                db.load(name, rows)
                db.tell(f"index {name}.at")
                for plan in (f"rank {name}.at from (5 5)", f"scan {name}", f"window {name}.at 0 0 900000 900000"):
                    for given in (1, 2, 10, 100):
                        for all_at_once in (True, False):
                            cursor = db.rows(plan)
                            self.assertEqual((cursor.stats().rows, cursor.asked), (0, 0))
                            found = cursor.take(given) if all_at_once else [next(cursor) for _ in range(given)]
                            self.assertEqual(len(found), given)
                            self.assertLessEqual(cursor.asked, given + 5, plan)
                            self.assertLessEqual(cursor.stats().rows, cursor.asked)
                            cursor.close()
            with db.rows("rank placed.at from (5 5)") as near, db.rows("rank spread.at from (5 5)") as everywhere:
                self.assertEqual(next(near), next(everywhere))
                self.assertEqual((near.asked, everywhere.asked), (1, 5))
            self.assertEqual(len(db.rows("rank spread.at from (5 5)", most=50).take(400)), 400)

    def test_cursors_that_nobody_holds_are_closed(self) -> None:
        with Shards(client, 2) as db:
            db.create("create p (k int)", Hash("k"))
            db.load("p", [[number] for number in range(9)])
            for _ in range(40):
                next(db.rows("scan p"))
                gc.collect()
            held = [db.rows("scan p") for _ in range(16)]
            with self.assertRaises(ShardRefused) as caught:
                db.rows("scan p")
            self.assertEqual(caught.exception.word, "TooManyCursors")
            del held, caught
            gc.collect()
            self.assertEqual(len(list(db.rows("scan p"))), 9)

    def test_a_far_that_is_overtaken_by_a_change_is_told(self) -> None:
        with Shards(client, 1) as db:
            db.create("create p (k int, at point)", Hash("k"))
            db.load("p", [(number, Point(number, 0)) for number in range(9)])
            db.tell("index p.at")
            rows = db.rows("far p.at from (0 0)")
            self.assertEqual(rows.take(1)[0].keys, (8,))
            db.insert("p", 100, Point(100, 0))
            self.assertRaises(Changed, rows.take, 3)
            self.assertRaises(Changed, rows.take, 3)


@unittest.skipIf(MISSING, MISSING)
class Loads(unittest.TestCase):
    def test_parts_are_loaded_with_progress(self) -> None:
        told: List[Progress] = []
        with tempfile.TemporaryDirectory() as folder, Shards(client, 4) as db:
            paths = []
            for part in range(5):
                paths.append(os.path.join(folder, f"{part}.csv"))
                with open(paths[-1], "w", encoding="utf-8") as file:
                    file.write("at,k,name\n")
                    file.writelines(f'({at} {part}),{part * 1000 + at},"a, ""b"""\n\n' for at in range(200))
            spreads: Dict[str, Spread] = {"p": Hash("k"), "q": Region("k", "at", 5), "r": Copied("k")}
            for name, spread in spreads.items():
                told.clear()
                db.create(f"create {name} (at point, k int, name text)", spread)
                self.assertEqual(db.load_parts(name, paths, header=True, progress=told.append), 1000)
                self.assertEqual(told[-1], (5, 5, 4, 4, told[-1].rows))
                self.assertEqual(told[-1].rows, {"p": 1000, "q": 1000, "r": 4000}[name])
                self.assertEqual([row.keys[0] for row in db.rows(f"scan {name}", most=100)], sorted(
                    part * 1000 + at for part in range(5) for at in range(200)))
                self.assertEqual(db.first(1, f"fetch (scan {name}) 1.at, 1.name")[0], (0, Point(0, 0), 'a, "b"'))

    def test_a_bad_record_is_told_by_its_part(self) -> None:
        with tempfile.TemporaryDirectory() as folder, Shards(client, 2) as db:
            db.create("create p (k int, n int)", Hash("k"))
            good, bad, no_key = (os.path.join(folder, name) for name in ("good.csv", "bad.csv", "no_key.csv"))
            Path(good).write_text("".join(f"{number},1\n" for number in range(100)))
            Path(bad).write_text("100,1\n\n101,1\n102,x\n")
            Path(no_key).write_text("200,1\n,2\n")
            with self.assertRaises(Refused) as caught:
                db.load_parts("p", [good, no_key])
            self.assertEqual((caught.exception.word, caught.exception.details), ("BadRecord", (2, 1)))
            self.assertIn("no_key.csv", caught.exception.line)
            self.assertEqual(list(db.rows("scan p")), [])
            with self.assertRaises(ShardRefused) as partly:
                db.load_parts("p", [good, bad])
            self.assertEqual((partly.exception.word, partly.exception.details), ("BadRecord", (3, 2)))
            self.assertIn("bad.csv", partly.exception.line)
            (refusing,), (other,) = partly.exception.refusals, partly.exception.done
            self.assertEqual({refusing, other}, {0, 1})
            self.assertEqual(len(list(db.rows("scan p", most=64))), partly.exception.done[other])
            self.assertIn(f"carried out by shard {other}", str(partly.exception))
            copy = pickle.loads(pickle.dumps(partly.exception))
            self.assertEqual((str(copy), copy.done), (str(partly.exception), partly.exception.done))

    def test_plain_files_are_parted_as_others_are(self) -> None:
        spreads: List[Spread] = [Hash("k"), Hash("name"), Region("k", "at")]
        plain = ["(1 1),5,a\n(1048575 0),-7,\n", "(7 900000),12,b",
                 "\n(1 1),0,a\n\n\n(2 2),9223372036854775807,c\n\n", "\ufeff(1 1),5,\u00fc\n"]
        others = ["", "\n", "(1 1),5,a\r\n", '(1 1),5,"a"\n', "(1 1),5,a,b\n(1 1),5\n", "5\n"]
        no_numbers = ["(1 1), 5,a\n", "(1 1),,a\n", "(1 1),5-1,a\n", "(1 1),99999999999999999999,a\n"]
        no_points = ["( 1 1),5,a\n", "(1 1)(2 2),5,a\n,6,b\n", "(1048576 0),5,a\n", "(1 ),5,a\n", "1 1,5,a\n"]
        none: List[str] = []
        for spread, bad in zip(spreads, (no_numbers, none, no_numbers + no_points)):
            homes = Homes(Relation.of("create p (at point, k int, name text)", spread), 3, quarters(3))
            for header in (False, True):
                for text in plain:
                    data = (text.replace("(", "at,k,name\n(", 1) if header else text).encode()
                    pieces = split_plain("f", data, header, homes, 3) or []
                    told = [[(list(piece.keys), piece.records(), list(piece.numbers), piece.copies) for piece in some]
                            for some in (pieces, split_any("f", data, header, homes, 3))]
                    self.assertEqual(told[0], told[1], (spread, text))
                    self.assertEqual(sum(len(piece.keys) for piece in pieces), text.count("("))
            for text in others + bad:
                self.assertIsNone(split_plain("f", text.encode(), False, homes, 3), (spread, text))
        margin = Homes(Relation.of("create p (at point, k int)", Region("k", "at", 0)), 3, quarters(3))
        self.assertIsNone(split_plain("f", b"(1 1),5\n", False, margin, 3))

    def test_records_are_read_as_the_program_reads_them(self) -> None:
        text = '\ufeff"(1 1)",5,a\r\n\n( 2   2 ),007,"Brin, ""the old"""\r(3 3),"-8",\n(4 4),-0, Cork \n(6 6),1,"\'Elm"'
        with tempfile.TemporaryDirectory() as folder, Shards(client, 3) as db, Sand() as one:
            path = os.path.join(folder, "fields.csv")
            Path(path).write_bytes(text.encode())
            one.tell("create p (at point, n int, name text)")
            one.tell(f'load p "{path}"')
            expected = sorted(row.values for row in one.rows("fetch (scan p) 1.n, 1.at, 1.name"))
            db.create("create p (at point, n int, name text)", Hash("n"))
            self.assertEqual(db.load_parts("p", [path]), 5)
            self.assertEqual([row.values for row in db.rows("fetch (scan p) 1.n, 1.at, 1.name")], expected)
            for bad, number, column in (('(1 1),1,a\n(1 1),2,"b\n(1 1),3,c\n', 2, 3), ('(1 1),"x', 1, 2), ("(1 1)\n", 1, 2), ("  \n", 1, 2),
                                        ('"' + 200000 * "x", 1, 1), ("(1 1), 5,a", 1, 2), ("(1 1),5,a,b", 1, 4)):
                Path(path).write_text(bad)
                with self.assertRaises(Refused) as caught:
                    db.load_parts("p", [path])
                self.assertEqual((caught.exception.word, caught.exception.details), ("BadRecord", (number, column)), bad[:50])

    def test_rows_go_to_the_shards_that_are_told(self) -> None:
        with Shards(client, 4) as db:
            db.create("create p (k text, at segment)", Region("k", "at", 10))
            half = WIDTH // 2
            self.assertEqual(db.insert("p", "a", Segment(Point(5, 5), Point(9, 9))), [0])
            self.assertEqual(len(db.insert("p", "b", Segment(Point(half - 5, half - 5), Point(5, 5)))), 4)
            self.assertEqual([row.keys for row in db.rows("scan p")], [("a",), ("b",)])
            with self.assertRaises(Refused) as caught:
                db.insert("p", 5, Segment(Point(5, 5), Point(9, 9)))
            self.assertEqual(caught.exception.word, "WrongKind")
            self.assertEqual(len(db.delete("p", "b")), 4)
            with self.assertRaises(Refused) as caught:
                db.delete("p", "b")
            self.assertEqual(caught.exception.word, "NoSuchId")
            with self.assertRaises(Refused) as caught:
                db.insert("nowhere", 5)
            self.assertEqual(caught.exception.word, "UnknownRelation")
            # one shard has the row already where another refuses it
            db.create("create c (k int, n int)", Copied("k"))
            db._links[1].ask("ask", "index c.n").wait()
            with self.assertRaises(ShardRefused) as partly:
                db.tell("index c.n")
            self.assertEqual((partly.exception.shard, partly.exception.word), (1, "IndexThere"))
            self.assertEqual(sorted(partly.exception.done), [0, 2, 3])
            self.assertEqual(db.insert("c", 5, 6), [0, 1, 2, 3])
            made = Relation.of("create d (k int)", Copied("k"))
            for shard in (0, 2, 3):
                db._links[shard].ask("create", made, Catalogue(db.regions, [made])).wait()
            db._planner.add(made)
            with self.assertRaises(ShardRefused) as partly:
                db.insert("d", 7)
            self.assertEqual((list(partly.exception.refusals), partly.exception.done), ([1], {0: 1, 2: 1, 3: 1}))
            self.assertIn("(shard 1); carried out by shards 0, 2, 3", str(partly.exception))


@unittest.skipIf(MISSING, MISSING)
class Plans(unittest.TestCase):
    def test_what_cannot_be_spread_is_told(self) -> None:
        with Shards(client, 2) as db:
            spreads: Dict[str, Spread] = {"h": Hash("k"), "g": Hash("k"), "c": Copied("k"), "r": Region("k", "at", 50),
                                          "s": Region("k", "at")}
            for name, spread in spreads.items():
                db.create(f"create {name} (k int, at point)", spread)
                db.tell(f"index {name}.at")
                db.tell(f"index {name}.k")
            for plan in ("join h.at g.at", "semi c.at h.at", "knn 2 r.at r.at", "semi r.at r.at within 51",
                         "join s.at s.at within 0", "match (scan h) 1.k = g.k", "filter (first 2 (scan h)) where 1.k > 1",
                         "sort (first 2 (scan h)) by 1.k", "sort (rank h.at from (1 1)) near 1.at from (2 2)"):
                self.assertRaises(NotSpread, db.rows, plan)
            for plan in ("semi r.at r.at within 50", "join r.at r.at within 50", "join c.at h.at", "join h.at c.at", "knn 2 c.at c.at",
                         "fetch (first 2 (fetch (scan h) 1.at)) 1.k", "join c.at r.at"):
                self.assertEqual(list(db.rows(plan)), [])
            for plan, word in (("rank h.at frm (1 1)", "Syntax"), ("rank h.to from (1 1)", "UnknownColumn"),
                               ("scan none", "UnknownRelation"), ("fetch (far h.at from (1 1)) 1.k", "Syntax"),
                               ("rank h.at from ((1 1)", "Syntax"), ("", "Syntax")):
                with self.assertRaises(Refused) as caught:
                    db.rows(plan)
                self.assertEqual(caught.exception.word, word, plan)
            for line in ("delete h 1", "insert h 1", "open c = scan h", ""):
                self.assertRaises(NotSpread, db.tell, line)
            wrong: List[Tuple[str, Spread]] = [
                ("create x (k int)", Hash("n")), ("creat x (k int)", Hash("k")), ("create x (k point)", Hash("k")),
                ("create x (k int)", Region("k", "k"))]
            for statement, spread in wrong:
                self.assertRaises(NotSpread, db.create, statement, spread)

    def test_the_form_of_an_answer(self) -> None:
        self.assertEqual(form("sort (filter (pick a.n from 1 to 2) where 1.t = \") (\") by 1.m")[:2],
                         (("a",), (Place(1, "m"), Place(1, "n"))))
        self.assertEqual(form("first 3 (fetch (first 5 (match (rank a.at from ((0 0) (1 5) (2 0))) 1.n = b.n)) 2.k)")[:3],
                         (("a", "b"), (Gap(),), 3))
        self.assertEqual(form("rank a.at from (3 4)-(1 9) within 7").search, ("rank", ("a", "at"), Box(1, 4, 3, 9), 7))
        for text in ("scan", "scan a b", "rank a.at from (1", "select a", "first (scan a)", "match (scan a) 2.k = b.k",
                     "window a.at 5 5 1 1"):
            self.assertRaises(NoPlan, form, text)


@unittest.skipIf(MISSING, MISSING)
class Parting(unittest.TestCase):
    def test_each_point_of_the_plane_has_one_shard(self) -> None:
        draw = random.Random(3)
        crowd = [Point(draw.randrange(WIDTH // 20), draw.randrange(WIDTH // 20)) for _ in range(2000)]
        for count in (1, 2, 3, 4, 7, 16):
            samples: List[List[Point]] = [[], crowd]
            for sample in samples:
                regions = quarters(count, sample)
                self.assertEqual(sum((box.right - box.left + 1) * (box.high - box.low + 1) for boxes in regions.boxes for box in boxes),
                                 WIDTH * WIDTH)
                for _ in range(100):
                    point = Point(draw.randrange(WIDTH), draw.randrange(WIDTH))
                    box = Box(*point, *point)
                    self.assertEqual(regions.gaps(box)[regions.home(*point)], 0)
                    self.assertEqual(regions.near(box, 0), [regions.home(*point)])
            shares = [sum(regions.home(*point) == shard for point in crowd) for shard in range(count)]
            self.assertLess(max(shares), 2 * len(crowd) / count + 100, (count, shares))

    def test_the_client_needs_no_dask(self) -> None:
        said = subprocess.run([sys.executable, "-c", "import sand, sys; print('distributed' in sys.modules)"], capture_output=True,
                              text=True, cwd=Path(__file__).resolve().parents[1], timeout=60)
        self.assertEqual(said.stdout, "False\n", said.stderr)

    def test_rows_are_read_off_lines(self) -> None:
        reading = Reading(True, ("a", "b"), ("int", "text", "point"), (Place(1, "n"), Gap()), 0)
        sent = Printed.of([("1/2\t7\t9\t5\tx\t(1 2)\t-3", ("k", 6)), ("4\t8\t9\t6\t\t(3 4)\t0", ("l", 6))])
        first, second = lines_of(reading).came(sent)
        self.assertEqual((first[0], second[0]), ((-3, Fraction(1, 2), "k", 6), (0, 4, "l", 6)))
        rows = [lines_of(reading).row(came) for came in (first, second)]
        for row in (rows[0], pickle.loads(pickle.dumps(rows[0]))):
            self.assertEqual((row.gap, row.keys, row.values), (Fraction(1, 2), ("k", 6), (5, "x", Point(1, 2))))
            self.assertEqual(row, (Fraction(1, 2), "k", 6, 5, "x", Point(1, 2)))
            self.assertIsInstance(row, KeyedRow)
        bare = lines_of(Reading(False, ("a",), (), (), 0))
        (row,) = map(bare.row, bare.came(Printed.of([("7", (3,))])))
        self.assertEqual((row, row.gap, row.keys, row.values), ((3,), None, (3,), ()))
        self.assertEqual(bare.came(Printed.of([])), [])

    def test_shards_go_to_another_client_by_pickle(self) -> None:
        with Shards(client, 3) as db:
            db.create("create p (k int)", Hash("k"))
            db.load("p", [[number] for number in range(20)])
            other = pickle.loads(pickle.dumps(db))
            with other.rows("scan p", most=8) as theirs, db.rows("scan p", most=8) as ours:
                self.assertEqual(list(theirs), list(ours))


@unittest.skipIf(MISSING, MISSING)
class Ends(unittest.TestCase):
    def kill(self, db: Shards, shard: int) -> str:
        """Kills the worker of a shard; its address."""
        address = db._links[shard].worker
        (process,) = client.run(os.getpid, workers=[address]).values()
        os.kill(process, signal.SIGKILL)
        return address

    def filled(self, folder: Optional[str], count: int) -> Shards:
        journal = os.path.join(folder, "city-{shard}.sandj") if folder else None
        db = Shards(client, count, journal=journal)
        db.create("create p (k int, at point)", Region("k", "at", 9))
        db.load("p", [(number, Point(number * 5000, number * 5000)) for number in range(200)])
        db.tell("index p.at")
        return db

    def test_a_killed_worker_is_told_and_its_journal_read_elsewhere(self) -> None:
        with tempfile.TemporaryDirectory() as folder:
            db = self.filled(folder, 3)
            db.create("create c (k int)", Copied("k"))
            plan = "rank p.at from (0 0)"
            expected = list(db.rows(plan, most=64))
            cursor = db.rows(plan)
            self.assertEqual(cursor.take(20), expected[:20])
            address = self.kill(db, 2)
            for _ in range(3):
                with self.assertRaises(ShardLost) as caught:
                    list(cursor)
                self.assertEqual((caught.exception.shard, caught.exception.worker), (2, address))
                self.assertIn(address, str(caught.exception))
            with self.assertRaises(ShardLost) as caught:
                db.insert("c", 1)
            self.assertEqual((caught.exception.shard, sorted(caught.exception.done)), (2, [0, 1]))
            with self.assertRaises(ShardLost):
                db.load_parts("c", [os.devnull])
            with self.assertRaises(ShardLost):
                db.load("p", [(number, Point(number * 5000, number * 5000)) for number in range(200, 209)])
            moved = os.path.join(folder, "moved")
            os.rename(os.path.join(folder, "city-2.sandj"), moved)
            with self.assertRaises(ShardLost) as caught:
                db.restart()
            self.assertIn("can be read on no worker", str(caught.exception))
            os.rename(moved, os.path.join(folder, "city-2.sandj"))
            self.assertEqual(db.restart(), [2])
            self.assertEqual(list(db.rows(plan, most=64))[:200], expected)
            self.assertNotEqual(db._links[2].worker, address)
            self.assertEqual(db.insert("p", 1000, Point(WIDTH - 1, WIDTH - 1)), [2])
            self.assertEqual(db.restart(), [])
            everything = list(db.rows(plan, most=64))
            db.close()
            with Shards(client, 3, journal=os.path.join(folder, "city-{shard}.sandj")) as again:
                self.assertEqual(list(again.rows(plan, most=64)), everything)
                self.assertEqual(again.insert("p", 1001, Point(WIDTH - 1, WIDTH - 1)), [2])
                with self.assertRaises(Refused) as taken:
                    again.create("create p (k int)", Hash("k"))
                self.assertEqual(taken.exception.word, "NameTaken")
                again.create("create q (k int)", Hash("k"))
            self.assertRaises(ValueError, Shards, client, 2, journal=os.path.join(folder, "city-{shard}.sandj"))
            self.assertRaises(ValueError, Shards, client, 4, journal=os.path.join(folder, "city-{shard}.sandj"))

    def test_a_killed_program_is_told_too(self) -> None:
        with tempfile.TemporaryDirectory() as folder:
            db = self.filled(folder, 2)
            expected = list(db.rows("scan p", most=64))
            cursor = db.rows("scan p")
            (killed,) = client.run(kill_program, os.path.join(folder, "city-1.sandj"), workers=[db._links[1].worker]).values()
            self.assertEqual(killed, 1)
            for _ in range(2):
                with self.assertRaises(ShardLost) as caught:
                    list(cursor)
                self.assertIn("shard 1 is lost", str(caught.exception))
                self.assertIn("by signal 9", str(caught.exception))
            self.assertEqual(db.restart(), [1])
            self.assertEqual(list(db.rows("scan p", most=64)), expected)
            db.close()
            journal = os.path.join(folder, "city-{shard}.sandj")
            whole = Path(folder, "city-0.sandj").read_bytes()
            Path(folder, "city-0.sandj").write_bytes(b"\1\0\0\0\1\7\0")
            with self.assertRaises(ShardLost) as caught:
                Shards(client, 2, journal=journal)
            self.assertIn("the journal is bad", str(caught.exception))
            Path(folder, "city-0.sandj").write_bytes(b"\0")
            with self.assertRaises(LookupError) as lost:
                Shards(client, 2, journal=journal)
            self.assertIn("shard 0 has lost the relation p", str(lost.exception))
            # a making that was broken off is made up for
            Path(folder, "city-0.sandj").write_bytes(whole)
            kept = Path(folder, "city-0.sandj.shards")
            text = kept.read_text()
            with Shards(client, 2, journal=journal) as db:
                db.create("create q (k int)", Hash("k"))
                db.insert("q", 5)
            Path(folder, "city-0.sandj").write_bytes(whole)
            kept.write_text(text)
            with Shards(client, 2, journal=journal) as db:
                self.assertEqual(list(db.rows("scan p", most=64)), expected)
                self.assertEqual(len(list(db.rows("scan q"))), db._homes["q"].of_key(5)[0])

    def test_a_program_that_has_read_much_is_started_again(self) -> None:
        with tempfile.TemporaryDirectory() as folder:
            with self.filled(folder, 2) as db:
                client.run(set_enough, 2000, workers=[link.worker for link in db._links])
                expected = list(db.rows("scan p", most=64))
                for number in range(300, 400):
                    db.insert("p", number, Point(number * 1000, 0))
                    self.assertEqual(db.first(1, f"rank p.at from ({number * 1000} 0)")[0].gap, 0)
                self.assertEqual([row for row in db.rows("scan p", most=64) if int(row.keys[0]) < 300], expected)
                sent = [link.ask("sent").wait() for link in db._links]
                self.assertLess(sum(sent), 5000)
        client.run(set_enough, 12_000_000)

    def test_a_journal_is_waited_for_as_long_as_a_program_has_it(self) -> None:
        with tempfile.TemporaryDirectory() as folder:
            name = os.path.join(folder, "lock")
            held = locked(name)
            db = Sand(kept_open=[held])
            os.close(held)
            begin = time.monotonic()
            threading.Timer(0.3, db.close).start()
            os.close(locked(name))
            self.assertGreaterEqual(time.monotonic() - begin, 0.3)

    def test_a_program_that_is_none_is_told(self) -> None:
        with tempfile.TemporaryDirectory() as folder:
            journal = os.path.join(folder, "{shard}")
            self.assertRaises(NoProgram, Shards, client, 2, program="/nowhere/sand", journal=journal)
            with self.assertRaises(ShardLost) as caught:
                Shards(client, 2, "--frames", "15", journal=journal)
            self.assertIn("usage: sand", str(caught.exception))
            Shards(client, 2, journal=journal).close()

    def test_without_a_journal_nothing_starts_again(self) -> None:
        db = self.filled(None, 2)
        process = client.submit(os.getpid, workers=[db._links[1].worker], pure=False).result()
        self.assertGreater(process, 0)
        self.kill(db, 1)
        with self.assertRaises(ShardLost) as caught:
            list(db.rows("scan p"))
        self.assertEqual(caught.exception.shard, 1)
        with self.assertRaises(ShardLost) as caught:
            db.restart()
        self.assertIn("no journal", str(caught.exception))
        self.assertRaises(ShardLost, db.tell, "rtree p.at")
        db.close()


if __name__ == "__main__":
    unittest.main()
