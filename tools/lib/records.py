"""The record of a data file that the program refused, in words."""
from __future__ import annotations

import csv
import io

MOST_SHOWN = 60
FORMS = {
    "int": "an int is digits, with at most a `-` in front: no blanks, no point, no comma",
    "text": "a text is UTF-8 of 255 bytes at most, without tabs, line feeds and other control characters",
    "point": "a point is (X Y), whole numbers from 0 to 1048575 (tools/latlon makes them of degrees)",
    "segment": "a segment is (X Y)-(X Y)", "polygon": "a polygon is ((X Y) (X Y) (X Y)), 3 to 64 corners",
}


def bad_record(name: str, number: int, column: int, columns: dict[str, str], passes_header: bool) -> str:
    """The line, the field and the form that is wanted there."""
    try:
        with open(name, "rb") as file:
            content = file.read()
    except OSError:
        return f"record {number} of {name}, column {column}"
    text = content.decode("utf-8-sig", errors="surrogateescape")
    reader = csv.reader(io.StringIO(text, newline=""))
    seen, line = 0, 1
    for record in reader:
        seen += bool(record)
        if seen == number:
            return told(f"{name}:{line}", record, column, columns, number, passes_header)
        line = reader.line_num + 1
    return f"record {number} of {name}, column {column}"


def told(where: str, record: list[str], column: int, columns: dict[str, str], number: int, passes_header: bool) -> str:
    if columns and len(record) != len(columns):
        said = f"{where} has {len(record)} field{'s' if len(record) != 1 else ''}, and the relation {len(columns)} columns"
    elif columns and column <= len(columns):
        name, kind = list(columns.items())[column - 1]
        said = f"{where}, field {column} ({name}): '{shown(record[column - 1])}'; {FORMS[kind]}"
    else:
        said = f"{where}, field {column}"
    if number == 1 and not passes_header:
        said += "; if it is a header, write `header` behind the file's name"
    return said


def shown(field: str) -> str:
    text = "".join("\\x%02x" % (ord(it) & 0xff) if it < " " or "\udc80" <= it <= "\udcff" else it for it in field)
    return text if len(text) <= MOST_SHOWN else text[:MOST_SHOWN] + ".."
