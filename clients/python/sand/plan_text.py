"""What a plan's text tells of its rows: the relation of each id, and the places whose values were fetched.

It follows the form that all plans have, and no list of them: each `relation.column`, and the relation behind `scan`, stands
for an id, in the order of the text; behind the plan of a `fetch` stand its places, `number.column`.
"""
from __future__ import annotations

import re
from typing import NamedTuple

TOKEN = re.compile(r'[A-Za-z_]\w*|-?\d+|"(?:[^"]|"")*"|[().,]|[^\s]', re.ASCII)


class Place(NamedTuple):
    """A column of the relation of a row's id."""
    relation: str
    column: str


class RowForm(NamedTuple):
    """The relations of a row's ids, and the columns of its values."""
    relations: list[str]
    places: list[Place]


def row_form(plan: str) -> RowForm:
    """The form of a plan's rows. What it says of a text that is no plan has no meaning; the program refuses that."""
    tokens = TOKEN.findall(plan)
    form = RowForm([], [])
    opened: list[str] = []
    word, at = "", 0
    while at < len(tokens):
        token = tokens[at]
        dotted = tokens[at + 1:at + 2] == ["."] and at + 2 < len(tokens)
        if token == "(":
            opened.append(word)
        elif token == ")":
            if opened and opened.pop() == "fetch":
                at = take_places(tokens, at + 1, form)
                continue
        elif is_name(token):
            if dotted:
                form.relations.append(token)
                at += 3
                continue
            if word == "scan" and not form.relations:
                form.relations.append(token)
            word = token
        at += 1
    return form


def take_places(tokens: list[str], at: int, form: RowForm) -> int:
    """Takes the places of a fetch, which begin at a token; the token behind them."""
    while at + 2 < len(tokens) and tokens[at + 1] == ".":
        number = int(tokens[at]) if tokens[at].isdigit() and len(tokens[at]) < 9 else 0
        relation = form.relations[number - 1] if 1 <= number <= len(form.relations) else ""
        form.places.append(Place(relation, tokens[at + 2]))
        at += 3
        if tokens[at:at + 1] != [","]:
            break
        at += 1
    return at


def is_name(token: str) -> bool:
    return token[0].isalpha() or token[0] == "_"
