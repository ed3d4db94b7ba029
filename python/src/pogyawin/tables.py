"""What a run did over its places, as tables. Place `k` is the moment behind `k` entries, so place 0 is the first shape."""

import csv
import importlib
import io
import json
from collections import Counter
from dataclasses import asdict, dataclass
from typing import Any, Callable, List, Optional, Tuple

from .calls import rounds
from .document import Document
from .journal import Fate
from .shape import Bot

@dataclass(frozen=True)
class Table:
    """Names of columns, and rows of values. Its `str` has columns of one width.
    `Table(("size", "rounds"), ((2, 1),)).to_csv() == "size,rounds\\n2,1\\n"`"""
    columns: Tuple[str, ...]
    rows: Tuple[Tuple[object, ...], ...]

    def to_csv(self) -> str:
        """The table as comma-separated values, with the names first. `Table(("a",), ((1,),)).to_csv() == "a\\n1\\n"`"""
        text = io.StringIO()
        csv.writer(text, lineterminator="\n").writerows([self.columns, *self.rows])
        return text.getvalue()

    def to_frame(self) -> Any:
        """The table as a frame of pandas. Raises `ImportError` where pandas is not there."""
        return importlib.import_module("pandas").DataFrame(list(self.rows), columns=list(self.columns))

    def __str__(self) -> str:
        cells = [list(map(str, row)) for row in (self.columns, *self.rows)]
        widths = [max(map(len, column)) for column in zip(*cells)]
        return "\n".join("  ".join(cell.rjust(width) for cell, width in zip(row, widths)) for row in cells)

def series(document: Document, variable: str = "", bot: Optional[int] = None, **counts: Callable[[Bot], bool]) -> Table:
    """At each place how many amoebots have each value of a variable, or the value of one amoebot by its number; and how
    many meet each condition. Raises `LookupError` for a name that is no variable.
    `series(run(LIGHT), "lit").rows[1] == (1, 1, 2) and series(LIGHT, lit=lambda bot: bot.values[0] == 1).rows == ((0, 1),)`"""
    at, one = document.program.number_of(variable) if variable else 0, [variable] if bot is not None else []
    values = range(document.program.variables[variable] + 1) if variable and not one else range(0)
    rows = []
    for place, shape in enumerate(document.shapes()):
        there = Counter(each.values[at] for each in shape.bots) if variable else Counter()
        rows.append((place, *(shape.bots[bot or 0].values[at] for _ in one), *(there[value] for value in values),
                     *(sum(map(bool, map(condition, shape.bots))) for condition in counts.values())))
    return Table(("place", *one, *(f"{variable} {value}" for value in values), *counts), tuple(rows))

def rounds_after(document: Document, *, seconds: Optional[float] = None) -> List[int]:
    """How many rounds have ended by each place. It asks `rounds` about fronts of the journal, halving: for R rounds and
    N entries about R log N times. Raises what `rounds` raises. `rounds_after(run(LIGHT)) == [0, 1, 2]`"""
    def at(place: int) -> int:
        return rounds(document.until(place), seconds=seconds).rounds

    def between(low: int, high: int, first: int, last: int) -> List[int]:
        if first == last or high - low < 2:
            return [first] * (high - low)
        middle = (low + high) // 2
        there = at(middle)
        return between(low, middle, first, there) + between(middle, high, there, last)

    end = len(document.journal or ())
    return between(0, end, at(0), at(end)) + [at(end)]

def failures(document: Document) -> Table:
    """How many turns failed with each failure, and the place, the caller, the turn and the amoebot of the first one.
    Raises `ValueError` for a document without lists. `failures(run(LIGHT)).rows == ()`"""
    if document.lists is None:
        raise ValueError("the document has no lists")
    failed = sorted((mark.place, mark.caller, mark.turn, mark.why) for mark in document.turns or () if mark.why
                    and mark.fate is Fate.FAILED)
    often = Counter(why for *_, why in failed)
    first = {why: (place, caller, turn) for place, caller, turn, why in reversed(failed)}
    return Table(("failure", "turns", "place", "caller", "turn", "bot"), tuple(
        (why, often[why], *first[why], document.lists.bot_of(*first[why][1:])) for why in often))

def entries(document: Document) -> Table:
    """The entries of a journal, each with the name of its action. `entries(run(LIGHT)).rows[0] == (0, 0, 1, 1, "light", "none")`"""
    actions = document.program.actions
    return Table(("place", "caller", "turn", "bot", "action", "move"), tuple(
        (entry.place, entry.caller, entry.turn, entry.bot, actions[entry.action], entry.move)
        for entry in document.journal or ()))

def to_json(document: Document, indent: Optional[int] = None) -> str:
    """The document as one object of JSON, with the variables and actions in their order. Fields are as in the classes;
    an empty node has -1 in place of an amoebot, and null is what is not told. `json.loads(to_json(LIGHT))["version"] == 1`"""
    named = {"variables": document.program.variables, "actions": document.program.actions, **asdict(document)}
    return json.dumps(named, default=lambda enum: enum.value, indent=indent)
