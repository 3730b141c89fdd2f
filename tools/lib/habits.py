"""What people write out of habit of other systems, and what is written here."""
from __future__ import annotations

import re
from typing import NamedTuple, Optional

from grammar import KINDS, PLANS, STATEMENTS, WORDS, Token


class Fault(NamedTuple):
    """A line that isn't of the grammar: what stands before the fault, the token there, and what follows it."""
    line: str
    before: str
    token: Token
    behind: str

    @property
    def words(self) -> list[str]:
        return self.line.split()


OTHER_KINDS = {
    "varchar": "text", "char": "text", "string": "text", "integer": "int", "bigint": "int", "number": "int", "numeric": "int",
    "float": "int", "double": "int", "real": "int", "bool": "int", "boolean": "int", "date": "int", "timestamp": "int",
    "geometry": "point, segment or polygon", "geography": "point, segment or polygon", "linestring": "segment", "line": "segment",
}
SQL_WORDS = {
    "select": "this isn't SQL: `show 5 PLAN` gives rows, `scan city` is a plan (docs/COOKBOOK.md, 'Coming from SQL')",
    "update": "a row is changed by `delete R ID` and `insert R ..`",
    "drop": "nothing is dropped; a run begins with nothing",
    "begin": "there are no transactions: each statement is all or nothing", "commit": "each statement is all or nothing",
    "help": "docs/LANGUAGE.md has the language; tools/sandsh has .help", "quit": "control-D ends", "exit": "control-D ends",
    "explain": "`open c = PLAN`, `next c 5`, `stats c` tell what a plan has visited",
}


def habit(fault: Fault) -> Optional[str]:
    """A sentence on the habit that a fault looks like, if it looks like one."""
    return of_line(fault) or of_token(fault) or of_place(fault)


def of_line(fault: Fault) -> Optional[str]:
    """By the first word of the line."""
    first = fault.words[0]
    if first.startswith("\ufeff"):
        return "the file begins with a byte order mark; save it without one (sed -i '1s/^\\xEF\\xBB\\xBF//' FILE)"
    if fault.before.strip():
        return None
    if first.startswith(("--", "//", "/*")):
        return "a comment is a line that begins with #"
    if first.startswith("."):
        return "words with a dot are those of tools/sandsh"
    if first.lower() in SQL_WORDS:
        return SQL_WORDS[first.lower()]
    if first != first.lower() and first.lower() in WORDS:
        return f"the words are written small: {first.lower()}"
    if first in PLANS:
        return f"a plan is shown by `show 5 {first} ..` or opened by `open c = {first} ..`"
    return None


def of_token(fault: Fault) -> Optional[str]:
    """By the token at the fault."""
    token, before, behind = fault.token.text, fault.before, fault.behind
    if token == ";":
        return "a statement ends with its line, without a `;`"
    if token in ("'", "`", "\u201c", "\u201d", "\u2018"):
        return 'a text stands in double quotes: "Alba"'
    if token == "." and before[-1:].isdigit() and behind[:1].isdigit() or re.fullmatch(r"\.?\d+", token) and before.endswith("."):
        return "numbers are whole; tools/latlon makes points of degrees"
    if token == "+":
        return "a number has no `+`"
    if token in ("=", ">") and before.rstrip()[-1:] in ("=", "<"):
        return "equal is `=`" if token == "=" else "unequal is `!=`"
    if token in ("==", "<>"):
        return "equal is `=`, unequal is `!=`"
    if token == "#":
        return "a comment is a line of its own"
    return None


def of_place(fault: Fault) -> Optional[str]:
    """By the token and what stands around it."""
    token, before = fault.token.text, fault.before.rstrip()
    small = token.lower()
    if token == "," and re.search(r"\(\s*-?\d+$", before):
        return "a point is (X Y), without a comma"
    if small in OTHER_KINDS and before[-1:].isalnum() and fault.words[0] == "create":
        return f"kinds are {', '.join(KINDS)}; for {small} take {OTHER_KINDS[small]}"
    if small in ("primary", "not", "unique", "references", "null", "default"):
        return "columns have a name and a kind and no more; ids are given by the program"
    if fault.words[:2] in (["insert", "into"], ["create", "table"]):
        small = fault.words[1]
    if small in ("into", "values", "table"):
        return f"`{small}` is left out: create city (at point, name text), insert city (1 1), \"Alba\""
    if small == "or":
        return "there is no `or`: ask twice, or take rows for both and choose among them"
    if small == "where":
        return "a filter stands round its plan: filter (PLAN) where 1.column > 5"
    if small in ("limit", "top"):
        return "the count stands in front: show 5 PLAN, or first 5 (PLAN)"
    if small == "order":
        return "a rank gives rows nearest first; sort (PLAN) by 1.column orders by an int"
    if small in ("desc", "asc"):
        return "a sort goes upwards; for the greatest first give the file a column of negative numbers"
    if token == "(" and re.search(r"\bindex\s+\w+$", before):
        return "a column is named relation.column: index city.at"
    if token == "(" and before.lower().endswith(("point", "polygon", "linestring")):
        return "a point is (X Y), a segment (X Y)-(X Y), a polygon ((X Y) (X Y) (X Y))"
    if fault.words[0] == "load" and not token.startswith('"') and re.fullmatch(r"load\s+\w+", before):
        return 'the name of a file stands in double quotes: load city "cities.csv"'
    if re.search(r"\b(where|and|by)$", before) or re.search(r"\)$|,$", before) and "fetch" in before:
        if re.match(r"[A-Za-z_]", token):
            return f"a column of a row is called by the number of its id: 1.{token}"
    if small in PLANS and fault.words[0] == "show" and before == "show":
        return f"the count of rows comes first: show 5 {small} .."
    operator = re.search(rf"\b({'|'.join(PLANS[9:])})(\s+\d{{1,9}})?$", before)
    if operator and token != "(":
        return f"the plan of this operator stands in parentheses: {operator[0]} (PLAN) .."
    if token != small and small in WORDS:
        return f"the words are written small: {small}"
    if small in STATEMENTS and before:
        return "each statement stands on a line of its own"
    return None
