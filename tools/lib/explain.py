"""A refused line explained: where its fault is, what is wrong, what may stand there."""
from __future__ import annotations

import difflib
import re
from typing import Callable, Iterable, NamedTuple, Optional

from catalog import Catalog
from grammar import Grammar, Token, tokens
from habits import Fault, habit
from records import bad_record
from sand.plan_text import row_form

MOST_BYTES = 8192
MOST_DIGITS = 30


class Why(NamedTuple):
    """An explanation: the place of the fault in the line, from 0, if it has one, and a sentence."""
    at: Optional[int]
    sentence: str


class Explainer:
    """Explains refusals of a script, by what it has made so far and by asking a program of its own."""

    def __init__(self, catalog: Catalog, ask: Callable[[str], list[str]]) -> None:
        self._catalog = catalog
        self._grammar = Grammar(ask)

    def explain(self, line: str, refusal: str) -> Why:
        """Why a line was refused with a line `refused N WORD ..`."""
        _, number, _, *details = refusal.split(" ")
        body = getattr(self, f"_refusal_{number}", None)
        if body is None:
            return Why(None, PLAIN.get(int(number), "docs/LANGUAGE.md has the table of refusals"))
        why: Why = body(line, [int(it) for it in details])
        return why

    def _refusal_6(self, line: str, details: list[int]) -> Why:
        there = line.encode()[:details[0] - 1]
        before = there.decode(errors="ignore")
        at = len(before)
        found = next((token for token in tokens(line) if token.at == at), Token(line[at:at + 1], at))
        if is_in_text(before):
            return Why(at, "in a text no control character may stand, and UTF-8 alone" if found.text else
                       'the text isn\'t closed; a `"` in it is written twice')
        fault = Fault(line, before, found, line[at + len(found.text):])
        said = habit(fault) if found.text else None
        earlier = self._grammar.earlier_fault(before)
        if earlier is not None:
            more = self._refusal_6(before, [earlier]).sentence
            return Why(at, f"no token begins so; and before it, at column {earlier}: {more}" if not said else
                       f"{said}; and before it, at column {earlier}: {more}")
        stands = self._grammar.may_stand(before)
        may = f"here may stand: {'  '.join(stands)}" if stands else ""
        if not said and found.text and found.is_name:
            said = meant(found.text, [it for it in stands if it.isalpha()])[2:]
        parts = [said or ("the line ends too early" if not found.text else ""), may]
        return Why(at, "; ".join(part for part in parts if part) or "no line of the language goes on so")

    def _refusal_7(self, line: str, _: list[int]) -> Why:
        found = tokens(line)
        why = window_order(found)
        if why:
            return why
        safe = [Token("1", it.at) if it.is_number else Token('"x"', it.at) if it.text[0] == '"' else it for it in found]
        if self._grammar.answers_range(joined(safe)):
            return counts(found)
        for place, token in enumerate(found):
            if token != safe[place]:
                pieces = joined(safe[:place]), joined(safe[place + 1:])
                if self._grammar.answers_range(f"{pieces[0]} {token.text} {pieces[1]}"):
                    return self._out_of_range(token, f"{pieces[0]} ", f" {pieces[1]}")
        return Why(None, "a number or a length of it is out of its range")

    def _out_of_range(self, token: Token, before: str, behind: str) -> Why:
        if token.text[0] == '"':
            size = len(token.text[1:-1].replace('""', '"').encode())
            return Why(token.at, f"a text has 255 bytes at most, and this one has {size:,}")
        low, high = self._grammar.bounds(before, behind)
        return Why(token.at, f"{told(token.text)} is out of its range; here may stand a number from {low:,} to {high:,}")

    def _refusal_8(self, line: str, _: list[int]) -> Why:
        known = self._catalog.relations
        name = next((token for token in relations_of(line) if token.text not in known), None)
        if name is None:
            return Why(None, "it names a relation that isn't there")
        refused = self._catalog.refused.get(("create", name.text))
        if refused:
            return Why(name.at, f"there is no relation {name.text}: its `create` on line {refused} was refused")
        return Why(name.at, f"there is no relation {name.text}" + meant(name.text, known) + listed("there are", known))

    def _refusal_9(self, line: str, _: list[int]) -> Why:
        found, known = tokens(line), self._catalog.relations
        ids = row_form(line).relations
        for name, dot, column in zip(found, found[1:], found[2:]):
            if dot.text != ".":
                continue
            relation = name.text
            if name.is_number:
                if not 1 <= as_number(name.text) <= len(ids):
                    return Why(name.at, f"a row of this plan has {len(ids)} id{'s' if len(ids) != 1 else ''}, "
                                        f"so the number in front of a column is from 1 to {len(ids)}")
                relation = ids[int(name.text) - 1]
            if relation in known and column.text not in known[relation].columns:
                return Why(column.at, f"{relation} has no column {column.text}" + meant(column.text, known[relation].columns)
                           + f"; it has: {known[relation]}")
        return Why(None, "it names a column that isn't there")

    def _refusal_10(self, line: str, _: list[int]) -> Why:
        found = tokens(line)
        relation = self._catalog.relations.get(found[1].text) if len(found) > 1 else None
        if found[0].text == "insert" and relation:
            return wrong_values(found, relation.columns)
        kinds = dict.fromkeys(f"{name} is {'an int' if kind == 'int' else f'a {kind}'}" for name, kind in self._kinds_of(line))
        rule = next((rule for word, rule in KIND_RULES if any(token.text == word for token in found)), "")
        return Why(None, "; ".join(part for part in (", ".join(kinds), rule) if part))

    def _kinds_of(self, line: str) -> Iterable[tuple[str, str]]:
        found, ids = tokens(line), row_form(line).relations
        for name, dot, column in zip(found, found[1:], found[2:]):
            if dot.text == ".":
                is_place = name.is_number and 1 <= as_number(name.text) <= len(ids)
                relation = ids[int(name.text) - 1] if is_place else name.text
                kind = self._catalog.kind(relation, column.text)
                if kind:
                    yield f"{name.text}.{column.text}", kind

    def _refusal_11(self, line: str, _: list[int]) -> Why:
        found = tokens(line)
        known = self._catalog.relations.get(found[1].text)
        if known:
            return Why(found[1].at, f"there is a relation {found[1].text} since line {known.line}; none is dropped or replaced")
        return Why(None, "two columns have one name")

    def _refusal_13(self, line: str, _: list[int]) -> Why:
        found = tokens(line)
        for word, name, dot, column in zip(found, found[1:], found[2:], found[3:]):
            statement = "rtree" if word.text == "near" else "index"
            if dot.text == "." and name.is_name and (statement, name.text, column.text) not in self._catalog.indexes:
                return Why(name.at, f"write `{statement} {name.text}.{column.text}` before it, once")
        return Why(None, "a column of it has no index")

    def _refusal_14(self, line: str, _: list[int]) -> Why:
        found = tokens(line)
        since = self._catalog.indexes.get((found[0].text, found[1].text, found[3].text)) if len(found) > 3 else None
        return Why(None, "the column has an index" + (f" since line {since}" if since else ""))

    def _refusal_16(self, line: str, details: list[int]) -> Why:
        found = tokens(line)
        relation = self._catalog.relations.get(found[1].text)
        name = found[2].text[1:-1].replace('""', '"')
        return Why(None, bad_record(name, details[0], details[1], relation.columns if relation else {},
                                    found[-1].text == "header"))

    def _refusal_21(self, line: str, _: list[int]) -> Why:
        name = tokens(line)[1]
        closed = self._catalog.closed.get(name.text)
        refused = self._catalog.refused.get(("open", name.text))
        more = (f": it was closed on line {closed}" if closed else
                f": its `open` on line {refused} was refused" if refused else
                meant(name.text, self._catalog.cursors) + listed("open are", self._catalog.cursors))
        return Why(name.at, f"no cursor {name.text} is open" + more)

    def _refusal_22(self, line: str, _: list[int]) -> Why:
        name = tokens(line)[1]
        since = self._catalog.cursors.get(name.text)
        return Why(name.at, f"a cursor {name.text} is open" + (f" since line {since}" if since else "") + f"; `close {name.text}` ends it")

    def _refusal_24(self, line: str, _: list[int]) -> Why:
        names = ", ".join(f"`close {name}` (opened on line {at})" for name, at in self._catalog.cursors.items())
        return Why(None, "no relation is changed while a cursor is open" + (f": {names}" if names else ""))


PLAIN = {
    1: "the machine had no memory for it",
    2: "the disk of the page file failed: is there room, and may it be written?",
    3: "a page that was read isn't the one that was written: somebody else has written to the page file",
    4: "the file can't be opened or read; its name is meant from the folder in which the program was started",
    5: f"a line has {MOST_BYTES:,} bytes at most; rows come in by `load`",
    12: "64 relations are there, and no more may be",
    15: "there is no row with this id; ids are given from 1 on, and none twice",
    17: "a data file has 67,108,864 bytes at most: load it in pieces",
    18: "a row takes 3,900 bytes at most",
    19: "a relation gives 1,000,000 ids at most, those of deleted rows counted",
    20: "a quadtree has 16,000,000 entries at most",
    23: "16 cursors are open, and no more may be: close one",
    25: "a plan has 16 operators at most",
}
KIND_RULES = [
    ("filter", "a test compares an int with a number, or a text with a text by = or != alone"),
    ("match", "the values on both sides of a `match` are of one kind, int or text"),
    ("sort", "`sort .. by` takes an int, `sort .. near` a point, segment or polygon"),
    ("pick", "`pick` takes the kind of its column, and `from .. to` an int"),
    ("index", "a threshold goes with a point, segment or polygon alone"),
    ("blocks", "`blocks` shows the tree of a point, segment or polygon"),
    ("rank", "distances are between points, segments and polygons"), ("join", "distances are between points, segments and polygons"),
]


def is_in_text(before: str) -> bool:
    """Whether the beginning of a line ends within a text."""
    last = tokens(before)[-1:]
    return bool(last) and last[0].text[0] == '"' and last[0].text.count('"') % 2 == 1


def joined(found: Iterable[Token]) -> str:
    return " ".join(token.text for token in found)


def as_number(digits: str) -> int:
    """A number that a line has, cut to 30 digits, which are beyond each range."""
    return int(digits[:MOST_DIGITS + 1])


def told(digits: str) -> str:
    return f"{int(digits):,}" if len(digits) <= MOST_DIGITS else f"a number of {len(digits):,} digits"


def window_order(found: list[Token]) -> Optional[Why]:
    """The corner of a window that is beyond the other one."""
    at = next((at for at, token in enumerate(found) if token.text == "window"), None)
    corners = [token for token in found[at + 4:at + 8]] if at is not None else []
    if len(corners) == 4 and all(token.is_number for token in corners):
        for low, high in ((corners[0], corners[2]), (corners[1], corners[3])):
            if as_number(low.text) > as_number(high.text):
                return Why(low.at, f"a window is X1 Y1 X2 Y2, its lower corner first: {told(low.text)} is above {told(high.text)}")
    return None


def counts(found: list[Token]) -> Why:
    if found[0].text == "create":
        return Why(None, f"a relation has 1 to 12 columns, and this one {sum(token.text == ',' for token in found) + 1}")
    return Why(None, "a polygon has 3 to 64 corners")


def relations_of(line: str) -> list[Token]:
    """The tokens of a line that name a relation."""
    found = tokens(line)
    named = [name for name, dot in zip(found, found[1:]) if dot.text == "." and name.is_name]
    if found[0].text in ("insert", "delete", "load") and len(found) > 1:
        named.insert(0, found[1])
    return named + [name for word, name in zip(found, found[1:]) if word.text == "scan"]


def wrong_values(found: list[Token], columns: dict[str, str]) -> Why:
    """The value of an insert that isn't of its column's kind, or how many there are."""
    values: list[list[Token]] = [[]]
    for token in found[2:]:
        if token.text == ",":
            values.append([])
        else:
            values[-1].append(token)
    for value, (name, kind) in zip(values, columns.items()):
        if value and kind_of(value) != kind:
            return Why(value[0].at, f"{name} is {'an int' if kind == 'int' else f'a {kind}'}, and this is "
                                    f"{'an int' if kind_of(value) == 'int' else f'a {kind_of(value)}'}")
    kinds = ", ".join(f"{name} {kind}" for name, kind in columns.items())
    return Why(None, f"the relation has {len(columns)} columns ({kinds}), and the line {len(values)} values")


def kind_of(value: list[Token]) -> str:
    text = "".join(token.text for token in value)
    if text[0] == '"':
        return "text"
    if text[0] != "(":
        return "int"
    return "polygon" if text.startswith("((") else "segment" if ")-(" in text else "point"


def meant(name: str, known: Iterable[str]) -> str:
    """`; is city meant?`, where a known name is like it."""
    close = difflib.get_close_matches(name.lower(), [it.lower() for it in known], 1, 0.6)
    real = next((it for it in known if close and it.lower() == close[0]), None)
    return f"; is {real} meant?" if real else ""


def listed(what: str, names: Iterable[str]) -> str:
    shown = ", ".join(list(names)[:12])
    return f"; {what}: {shown}" if shown else ""


def caret(line: str, at: int) -> tuple[str, str]:
    """A line and the line below it with a mark, both cut round the place where the line is long."""
    start = max(0, at - 100)
    shown = ("..." if start else "") + line[start:start + 160] + ("..." if len(line) > start + 160 else "")
    before = ("..." if start else "") + line[start:at]
    return shown, re.sub(r"[^\t]", " ", before) + "^"
