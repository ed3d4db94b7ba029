"""Runs that go on until nothing moves any more."""

from dataclasses import dataclass, replace
from enum import Enum
from typing import Dict, List, Optional

from .calls import run
from .document import Document, Program
from .journal import Entry, Fate
from .lists import Lists
from .shape import Shape

class Ending(Enum):
    """Why a run to rest ended: nobody is left to act; nobody acts, but some fail; or the limit of entries was reached.
    `Ending.AT_REST.value == "at rest"`"""
    AT_REST = "at rest"
    STUCK = "stuck"
    LIMIT = "at the limit"

@dataclass(frozen=True)
class Rest:
    """The end of a run to rest: the whole run as one document, which `replay` and `rounds` accept; why it ended; the
    failure of each amoebot that fails for ever; and how many runs and turns were made, the last test included.
    `run_to_rest(LIGHT.program, LIGHT.shape).failing == {}`"""
    document: Document
    ending: Ending
    failing: Dict[int, str]
    runs: int
    turns: int

def run_to_rest(program: Program, shape: Shape, *, callers: int = 1, turns: Optional[int] = None,
                entries: int = 65_536, version: int = 3, seconds: Optional[float] = None) -> Rest:
    """Runs on from the last shape until a whole run makes no entry, and then gives each amoebot one turn by one list.
    Where that makes an entry too, it goes on. What a turn does depends on the shape alone, so none changes the end.

    Each run has `callers` lists of neighbours with `turns` turns each, by default 16 for each amoebot of a list.
    The journal stops at `entries` entries. `seconds` limits each call. An entry keeps the caller and the turn of its
    own run. Raises what `run` raises. `run_to_rest(LIGHT.program, LIGHT.shape).ending == Ending.AT_REST`"""
    lists = Lists.by_place(shape, callers, turns) if callers > 1 else Lists.of_all(shape, turns)
    once = Lists.of_all(shape, len(shape.bots))
    journal: List[Entry] = []
    runs = made = 0
    failing: Dict[int, str] = {}
    final, ending, is_last = shape, Ending.LIMIT, False
    while len(journal) < entries and ending is Ending.LIMIT:
        left = entries - len(journal)
        asked = once if is_last else replace(lists, turns=min(lists.turns, max(left // max(len(lists.bots), 1), 1)))
        ended = run(Document(program, final, asked, version=version), seconds=seconds)
        found, marks = ended.journal or (), ended.turns or ()
        runs, made = runs + 1, made + len(marks)
        if len(found) > left:
            break
        journal += [replace(entry, place=len(journal) + at) for at, entry in enumerate(found)]
        final = ended.final or final
        if is_last and not found:
            failing = {once.bot_of(0, mark.turn): mark.why for mark in marks if mark.fate is Fate.FAILED}
            ending = Ending.STUCK if failing else Ending.AT_REST
        is_last = not found
    whole = Document(program, shape, journal=tuple(journal), final=final, version=version)
    return Rest(whole, ending, failing, runs, made)
