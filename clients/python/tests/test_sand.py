"""Runs the real program; where there is none, each test is skipped."""
from __future__ import annotations

import gc
import os
import signal
import subprocess
import sys
import threading
import time
import unittest
from fractions import Fraction
from pathlib import Path

sys.path.insert(0, str(Path(__file__).resolve().parents[1]))
from sand import NoProgram, Point, Polygon, ProgramEnded, Refused, Row, Sand, Segment, find_program, literal  # noqa: E402
from sand.plan_text import Place, row_form  # noqa: E402

try:
    find_program()
    MISSING = ""
except NoProgram as missing:
    MISSING = str(missing)

CAFES = [(Point(10, 10), "Alba", 5), (Point(40, 10), 'the "Brin", a café', -7), (Point(10, 90), "", 12)]


def cafes() -> Sand:
    db = Sand()
    db.tell("create cafe (at point, name text, seats int)")
    db.load("cafe", CAFES)
    db.tell("index cafe.at")
    return db


class Texts(unittest.TestCase):
    def test_values_are_written_as_a_script_has_them(self) -> None:
        self.assertEqual(literal('a "b"'), '"a ""b"""')
        self.assertEqual(literal(-5), "-5")
        self.assertEqual(literal((1, 2)), "(1 2)")  # type: ignore[arg-type]
        self.assertEqual(literal(Segment(Point(1, 2), Point(3, 4))), "(1 2)-(3 4)")
        self.assertEqual(literal(Polygon((Point(0, 0), Point(5, 0), Point(0, 5)))), "((0 0) (5 0) (0 5))")
        for value in (None, 1.5, True, [1, 2]):
            self.assertRaises(TypeError, literal, value)

    def test_the_form_of_rows_is_read_off_any_plan(self) -> None:
        for plan, relations in [
                ("scan a", ["a"]), ("rank a.at from (1 2)", ["a"]), ("near a.at from ((1 2) (3 4) (5 6))", ["a"]),
                ("far a.at from (1 2)", ["a"]), ("join a.at b.at within 5", ["a", "b"]), ("knn 2 a.at b.at", ["a", "b"]),
                ("match (join a.at b.at) 1.n = c.n", ["a", "b", "c"]), ("first 3 (semi a.at b.at)", ["a", "b"]),
                ('filter (scan a) where 1.name = "b.c (x"', ["a"]), ("sort (scan scan) near 1.at from (1 1)", ["scan"])]:
            self.assertEqual(row_form(plan), (relations, []), plan)
        form = row_form("fetch (filter (fetch (match (rank a.at from (1 2)) 1.n = b.n) 1.n, 2.m) where 1.n > 5) 2.k")
        self.assertEqual(form, (["a", "b"], [Place("a", "n"), Place("b", "m"), Place("b", "k")]))


@unittest.skipIf(MISSING, MISSING)
class Statements(unittest.TestCase):
    def test_a_line_has_its_answer(self) -> None:
        with cafes() as db:
            self.assertEqual(db.ask("show 2 scan cafe"), ["1", "2"])
            self.assertEqual(db.ask("show 9 scan cafe"), ["1", "2", "3", "end"])
            self.assertEqual(db.ask("blocks cafe.at"), ["0\t0\t0\t1 2 3"])
            for passed_over in ("", "  \t", "# a comment", "\r", " # x\r"):
                self.assertEqual(db.ask(passed_over), [])
            self.assertEqual(db.insert("cafe", Point(1, 1), "Dorn", 9), 4)
            self.assertIsNone(db.tell("delete cafe 4"))
            self.assertEqual(db.tell('load cafe "/dev/null"'), 0)

    def test_a_refusal_is_an_exception_with_number_and_word(self) -> None:
        with cafes() as db:
            for line, number, word, details in [
                    ("insert cafe (0", 6, "Syntax", (15,)), ("insert cafe (1048576 1)", 7, "Range", ()),
                    ("next c 1", 21, "UnknownCursor", ()), ("show 1 scan nowhere", 8, "UnknownRelation", ()),
                    ("blocks cafe.name", 10, "WrongKind", ()), ("nothing of the kind", 6, "Syntax", (1,)),
                    ("next c 0", 7, "Range", ()), ("show " + 5000 * "9" + " scan cafe", 7, "Range", ()), ("show 0 scan cafe", 7, "Range", ()), ("next 5 5", 6, "Syntax", (6,)),
                    ("show 5x scan cafe", 6, "Syntax", (7,)), ("\r\r", 6, "Syntax", (1,)), ("#" + 9000 * "x", 5, "LineTooLong", ())]:
                with self.assertRaises(Refused) as caught:
                    db.ask(line)
                refused = caught.exception
                self.assertEqual((refused.number, refused.word, refused.details), (number, word, details), line[:50])
                self.assertEqual(db.ask("show 1 scan cafe"), ["1"], line[:50])

    def test_rows_that_look_like_a_refusal_are_rows(self) -> None:
        with Sand() as db:
            db.tell("create t (name text)")
            names = ["refused 21 UnknownCursor", "end", "ok", "5"]
            db.load("t", [[name] for name in names])
            self.assertEqual([row.values[0] for row in db.rows("fetch (scan t) 1.name")], names)

    def test_a_statement_is_one_line(self) -> None:
        with Sand() as db:
            self.assertRaises(ValueError, db.ask, "create a (b int)\ncreate c (d int)")
            self.assertEqual(db.answer("show 1 scan a"), ["refused 8 UnknownRelation"])

    def test_rows_are_loaded_from_an_iterable_all_or_none(self) -> None:
        with cafes() as db:
            self.assertEqual(db.load("cafe", ((Point(at, at), f"number {at}", at) for at in range(1000))), 1000)
            with self.assertRaises(Refused) as caught:
                db.load("cafe", [(Point(1, 1), "a", 1), (Point(1, 1), "b", "no int")])
            self.assertEqual((caught.exception.word, caught.exception.details), ("BadRecord", (2, 3)))
            self.assertRaises(TypeError, db.load, "cafe", [(Point(1, 1), None, 1)])
            self.assertRaises(TypeError, db.load, "cafe", ["a text"])
            self.assertEqual(db.insert("cafe", Point(1, 1), "after", 1), 1004)

    def test_words_of_the_command_line_are_options(self) -> None:
        with Sand(frames=16) as db:
            self.assertIsNone(db.tell("create a (b int)"))
        with Sand("--frames", "16") as db:
            self.assertIsNone(db.tell("create a (b int)"))


@unittest.skipIf(MISSING, MISSING)
class Rows(unittest.TestCase):
    def test_a_row_is_its_gap_its_ids_and_its_values(self) -> None:
        with cafes() as db:
            gap, number, name, seats, at = next(db.rows("fetch (rank cafe.at from (12 10)) 1.name, 1.seats, 1.at"))
            self.assertEqual((gap, number, name, seats, at), (4, 1, "Alba", 5, Point(10, 10)))
            self.assertIsInstance(gap, Fraction)
            row = db.rows("fetch (rank cafe.at from (0 0)-(1 3)) 1.name").take(2)[1]
            self.assertIsInstance(row, Row)
            self.assertEqual((row.gap, row.ids, row.values), (Fraction(1570), (2,), ('the "Brin", a café',)))
            db.tell("create way (way segment, area polygon)")
            db.insert("way", Segment(Point(0, 0), Point(3, 1)), Polygon((Point(0, 0), Point(4, 0), Point(0, 4))))
            db.tell("index way.way")
            (row,) = db.rows("fetch (rank way.way from (0 1)) 1.way, 1.area")
            self.assertEqual(row.gap, Fraction(9, 10))
            self.assertEqual(row.values, (Segment(Point(0, 0), Point(3, 1)), Polygon((Point(0, 0), Point(4, 0), Point(0, 4)))))
            self.assertEqual([row.ids for row in db.rows("join cafe.at way.way")], [(1, 1), (2, 1), (3, 1)])
            self.assertIsNone(next(db.rows("pick cafe.seats from 0 to 9")).gap if db.tell("index cafe.seats") else None)

    def test_first_rows_come_by_one_statement(self) -> None:
        with cafes() as db:
            plan = "fetch (rank cafe.at from (12 10)) 1.name"
            self.assertEqual(db.first(2, plan), db.rows(plan).take(2))
            self.assertEqual([row.values for row in db.first(9, plan)], [("Alba",), ('the "Brin", a café',), ("",)])
            self.assertEqual(db.first(1, "rank cafe.at from (12 10) within 1"), [])
            self.assertRaises(Refused, db.first, 0, plan)

    def test_rows_are_pulled_as_they_are_asked_for(self) -> None:
        with Sand() as db:
            db.tell("create p (at point)")
            db.load("p", [[Point(at, 0)] for at in range(3000)])
            db.tell("index p.at")
            rows = db.rows("rank p.at from (0 0)")
            self.assertEqual(rows.stats().rows, 0)
            pulled = []
            for asked in range(1, 8):
                next(rows)
                pulled.append(rows.stats().rows)
            self.assertEqual(pulled, [1, 3, 3, 7, 7, 7, 7])
            self.assertLess(rows.stats().blocks, 20)
            one_by_one = db.rows("rank p.at from (0 0)", most=1)
            self.assertEqual([row.ids[0] for row in one_by_one.take(5)], [1, 2, 3, 4, 5])
            self.assertEqual(one_by_one.stats().rows, 5)
            self.assertEqual(len(list(rows)), 3000 - 7)
            self.assertEqual(list(rows), [])

    def test_a_cursor_closes_itself(self) -> None:
        with cafes() as db:
            def is_open(name: str) -> bool:
                return db.answer(f"stats {name}") != ["refused 21 UnknownCursor"]
            rows = db.rows("scan cafe")
            self.assertTrue(is_open(rows.name))
            self.assertEqual(len(list(rows)), 3)
            self.assertFalse(is_open(rows.name))
            for _ in (broken_off := db.rows("scan cafe")):
                break
            name = broken_off.name
            self.assertTrue(is_open(name))
            del broken_off
            gc.collect()
            self.assertFalse(is_open(name))
            with db.rows("scan cafe") as rows:
                next(rows)
                self.assertTrue(is_open(rows.name))
            self.assertFalse(is_open(rows.name))
            self.assertEqual(db.insert("cafe", Point(1, 1), "Dorn", 9), 4)

    def test_sixteen_cursors_stand_side_by_side(self) -> None:
        with cafes() as db:
            cursors = [db.rows(f"rank cafe.at from ({at} 0)") for at in range(16)]
            firsts = [[next(cursor).gap for cursor in cursors] for _ in range(3)]
            self.assertEqual(firsts[0], [min((10 - at) ** 2, (40 - at) ** 2) + 100 for at in range(16)])
            self.assertEqual(firsts[2], [(10 - at) ** 2 + 8100 for at in range(16)])
            with self.assertRaises(Refused) as caught:
                db.rows("scan cafe")
            self.assertEqual(caught.exception.word, "TooManyCursors")
            cursors.pop()
            gc.collect()
            self.assertEqual(len(list(db.rows("scan cafe"))), 3)

    def test_threads_may_ask_at_once(self) -> None:
        with cafes() as db:
            found: list[list[int]] = []

            def ask() -> None:
                found.append([row.ids[0] for _ in range(20) for row in db.rows("scan cafe")])
            threads = [threading.Thread(target=ask) for _ in range(8)]
            for thread in threads:
                thread.start()
            for thread in threads:
                thread.join(60)
            self.assertEqual(found, 8 * [20 * [1, 2, 3]])


@unittest.skipIf(MISSING, MISSING)
class Ends(unittest.TestCase):
    def test_the_end_of_the_program_in_the_middle_is_an_exception(self) -> None:
        with cafes() as db:
            rows = db.rows("scan cafe", most=1)
            next(rows)
            os.kill(db._program._process.pid, signal.SIGKILL)
            for _ in range(3):
                with self.assertRaises(ProgramEnded) as caught:
                    list(rows)
                    for _ in range(1000):
                        db.ask("show 1 scan cafe")
                self.assertEqual(caught.exception.status, -9)
            rows.close()

    def test_a_wrong_word_of_the_command_line_is_told(self) -> None:
        with Sand("--frames", "15") as db, self.assertRaises(ProgramEnded) as caught:
            for _ in range(1000):
                db.ask("create a (b int)")
        self.assertEqual(caught.exception.status, 2)
        self.assertIn("usage: sand", str(caught.exception))

    def test_a_script_of_sixteen_megabytes_is_the_most(self) -> None:
        with Sand() as db, self.assertRaises(ProgramEnded) as caught:
            for _ in range(2200):
                db.ask("#" + 8000 * "x")
            db.ask("show 1 scan a")
        self.assertEqual(caught.exception.status, 5)

    def test_closed_is_closed(self) -> None:
        db = cafes()
        rows = db.rows("scan cafe")
        self.assertEqual(db.close(), 0)
        self.assertIsNone(db.close())
        self.assertRaises(ProgramEnded, next, rows)
        self.assertRaises(ProgramEnded, db.ask, "show 1 scan cafe")

    def test_a_program_that_is_none_is_named(self) -> None:
        self.assertRaises(NoProgram, Sand, program="/nowhere/sand")

    def test_a_statement_that_is_broken_off_ends_the_program(self) -> None:
        script = (f"import sys, _thread, threading; sys.path.insert(0, {str(Path(__file__).resolve().parents[1])!r})\n"
                  "from sand import *\n"
                  "with Sand() as db:\n"
                  "    db._program._read = lambda: (_ for _ in ()).throw(KeyboardInterrupt())\n"
                  "    try: db.ask('show 1 scan a')\n"
                  "    except KeyboardInterrupt: pass\n"
                  "    try: db.ask('show 1 scan a')\n"
                  "    except ProgramEnded as ended: print(ended)\n")
        said = subprocess.run([sys.executable, "-c", script], capture_output=True, text=True, timeout=60)
        self.assertEqual(said.stdout, "the program was ended, since a statement was broken off\n", said.stderr)


@unittest.skipIf(MISSING, MISSING)
class Speed(unittest.TestCase):
    def test_rows_come_by_the_ten_thousand(self) -> None:
        with Sand() as db:
            db.tell("create p (at point, name text)")
            db.load("p", ((Point(at * 7919 % 1000003, at * 104729 % 1000003), f"number {at}") for at in range(40_000)))
            db.tell("index p.at")
            begin, used = time.perf_counter(), time.process_time()
            count = sum(1 for _ in db.rows("fetch (rank p.at from (500000 500000)) 1.name"))
            seconds, used = time.perf_counter() - begin, time.process_time() - used
        self.assertEqual(count, 40_000)
        print(f"client: {count / seconds:,.0f} rows/s, {count / used:,.0f} for each second of its processor")
        # by the processor, since a gate shares the machine
        self.assertGreater(count / used, 20_000)


if __name__ == "__main__":
    unittest.main()
