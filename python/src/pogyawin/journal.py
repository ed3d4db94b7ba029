"""Journals and marks: what the turns of a run did."""

from __future__ import annotations

from dataclasses import dataclass
from enum import Enum
from typing import Callable, Final, Optional, Tuple, TypeVar, Union

from .figures import Node
from .shape import Bot
from .tokens import Tokens

T = TypeVar("T")
EMPTY: Final = -1  # in place of the number of an amoebot: nobody is on the node

@dataclass(frozen=True)
class Spot:
    """A node that was entered or left: the amoebot that is on it now and, in version 3, the one before.
    `str(Spot((3, 1), now=0, before=EMPTY)) == "spot 3 1 empty to 0"`"""
    node: Node
    now: int
    before: Optional[int] = None

    def __str__(self) -> str:
        now, before = ("empty" if bot == EMPTY else str(bot) for bot in (self.now, self.before))
        return f"spot {self.node[0]} {self.node[1]} " + ("" if self.before is None else f"{before} to ") + now

@dataclass(frozen=True)
class Body:
    """An amoebot that changed: its number, what it is now and, in version 3, what it was before.
    `str(Body(1, Bot((3, 1), (3, 1)))) == "body 1 3 1 3 1 0 +"`"""
    bot: int
    now: Bot
    before: Optional[Bot] = None

    def __str__(self) -> str:
        return f"body {self.bot} " + ("" if self.before is None else f"{self.before} to ") + str(self.now)

@dataclass(frozen=True)
class Entry:
    """An entry: its place, the caller, its turn, the amoebot and the action, all numbered from 0; the movement in
    words; and the cells that changed. `str(Entry(0, 0, 2, 1, 0, "expand head 5")) == "entry 0 0 2 1 0 expand head 5"`"""
    place: int
    caller: int
    turn: int
    bot: int
    action: int
    move: str = "none"
    cells: Tuple[Union[Spot, Body], ...] = ()

    @classmethod
    def take(cls, tokens: Tokens, old: bool) -> Entry:
        place, caller, turn, bot, action = (tokens.number() for _ in range(5))
        move, cells = tokens.until("spot", "body", "entry", "end"), []
        while tokens.next in ("spot", "body"):
            cell: Union[Spot, Body] = (Spot(tokens.node(), *_values(tokens, old, _occupant)) if tokens.take() == "spot"
                                       else Body(tokens.number(), *_values(tokens, old, Bot.take)))
            cells.append(cell)
        return cls(place, caller, turn, bot, action, move, tuple(cells))

    def __str__(self) -> str:
        numbers = f"entry {self.place} {self.caller} {self.turn} {self.bot} {self.action} {self.move}"
        return " ".join([numbers, *map(str, self.cells)])

class Fate(Enum):
    """What may become of a turn. `Fate("busy") == Fate.BUSY`"""
    DONE = "done"
    IDLE = "idle"
    FAILED = "failed"
    BUSY = "busy"

@dataclass(frozen=True)
class Mark:
    """What became of a turn of a caller. `place` counts the entries before it, or is that of its own entry.
    `why` has the failure, or the cell that a Busy turn found and who held it, in words.
    `str(Mark(0, 1, Fate.FAILED, 3, "edge")) == "turn 0 1 failed edge 3"`"""
    caller: int
    turn: int
    fate: Fate
    place: int
    why: str = ""

    @classmethod
    def take(cls, tokens: Tokens) -> Mark:
        caller, turn, fate, why = tokens.number(), tokens.number(), Fate(tokens.take()), ""
        if fate is Fate.FAILED:
            why = tokens.take()
        elif fate is Fate.BUSY:
            why = tokens.until("place")
            tokens.word("place")
        return cls(caller, turn, fate, tokens.number(), why)

    def __str__(self) -> str:
        why = f" {self.why}" * bool(self.why) + " place" * (self.fate is Fate.BUSY)
        return f"turn {self.caller} {self.turn} {self.fate.value}{why} {self.place}"

def _values(tokens: Tokens, old: bool, take: Callable[[Tokens], T]) -> Tuple[T, Optional[T]]:
    """The value of a cell, and the one before it if the next tokens say it."""
    before = take(tokens) if old else None
    if old:
        tokens.word("to")
    return take(tokens), before

def _occupant(tokens: Tokens) -> int:
    return EMPTY if tokens.has("empty") else tokens.number()
