"""A client of SAND: it starts the program, sends it statements, and reads their answers.

    from sand import Point, Sand

    with Sand() as db:
        db.tell("create cafe (at point, name text)")
        db.load("cafe", [(Point(10, 10), "Alba"), (Point(40, 10), "Brin")])
        db.tell("index cafe.at")
        for gap, number, name in db.rows("fetch (rank cafe.at from (12 10)) 1.name"):
            print(gap, number, name)

Read `database.py` first. `program.py` knows where an answer ends, `cursor.py` pulls rows, `values.py` reads them.
"""
from .cursor import Cursor, Stats
from .database import Sand
from .program import NoProgram, ProgramEnded, find_program
from .refusal import Refused
from .values import Point, Polygon, Row, Segment, Shape, Value, literal

__all__ = [
    "Cursor", "NoProgram", "Point", "Polygon", "ProgramEnded", "Refused", "Row", "Sand", "Segment", "Shape", "Stats",
    "Value", "find_program", "literal",
]
