"""Lists of activations, and schedules of steps."""

from __future__ import annotations

from dataclasses import dataclass
from typing import List, Optional, Sequence, Tuple

from .figures import Draws
from .shape import Shape
from .tokens import Tokens, section

@dataclass(frozen=True)
class Lists:
    """How many turns each caller has, and the amoebots of each, which it goes through again and again.
    Where `turns` is None below, they are 16 for each amoebot of the longest list, and 65,536 in all at most.
    `str(Lists(6, ((2, 1, 0),))) == "lists\\nturns 6\\nlist 2 1 0\\nend\\n"`"""
    turns: int
    bots: Tuple[Tuple[int, ...], ...] = ()

    @classmethod
    def of_all(cls, shape: Shape, turns: Optional[int] = None) -> Lists:
        """One list of all amoebots, by their numbers. `Lists.of_all(LIGHT.shape, 9) == Lists(9, ((0, 1, 2),))`"""
        return cls._of([range(len(shape.bots))], turns)

    @classmethod
    def by_place(cls, shape: Shape, callers: int, turns: Optional[int] = None) -> Lists:
        """So many lists of nearly one length, by x and then y of the heads. `Lists.by_place(LIGHT.shape, 2).bots == ((0, 1), (2,))`"""
        return cls.by_shares(shape, [1] * callers, turns)

    @classmethod
    def by_shares(cls, shape: Shape, shares: Sequence[float], turns: Optional[int] = None) -> Lists:
        """Lists by place, as long as these shares are to one another. `Lists.by_shares(LIGHT.shape, [1, 2]).bots == ((0,), (1, 2))`"""
        placed = sorted(range(len(shape.bots)), key=lambda number: (*shape.bots[number].head, number))
        return cls._of(_dealt(placed, shares), turns)

    @classmethod
    def by_draw(cls, shape: Shape, callers: int, seed: int, turns: Optional[int] = None) -> Lists:
        """So many lists of nearly one length, in an order that a seed draws. `len(Lists.by_draw(LIGHT.shape, 3, seed=1).bots) == 3`"""
        return cls._of(_dealt(Draws(seed).shuffled(range(len(shape.bots))), [1] * callers), turns)

    @classmethod
    def _of(cls, bots: Sequence[Sequence[int]], turns: Optional[int]) -> Lists:
        kept = tuple(tuple(each) for each in bots if each)
        most = min(16 * max(map(len, kept), default=0), 65_536 // max(len(kept), 1))
        return cls(most if turns is None else turns, kept)

    @classmethod
    def take(cls, tokens: Tokens) -> Lists:
        tokens.word("turns")
        return cls(tokens.number(), tokens.items("list", Tokens.numbers))

    def bot_of(self, caller: int, turn: int) -> int:
        """The amoebot that has this turn of this caller. `LIGHT.lists.bot_of(0, 4) == 1`"""
        return self.bots[caller][turn % len(self.bots[caller])]

    def __str__(self) -> str:
        lists = (" ".join(map(str, ["list", *each])) for each in self.bots)
        return section("lists", f"turns {self.turns}", *lists)

@dataclass(frozen=True)
class Schedule:
    """Whose steps come next under `interleave`: callers, each with how many steps, or None for one.
    `str(Schedule(((0, 8), (1, None)))) == "schedule\\n0 times 8\\n1\\nend\\n"`"""
    steps: Tuple[Tuple[int, Optional[int]], ...] = ()

    @classmethod
    def take(cls, tokens: Tokens) -> Schedule:
        steps: List[Tuple[int, Optional[int]]] = []
        while not tokens.has("end"):
            steps.append((tokens.number(), tokens.number() if tokens.has("times") else None))
        return cls(tuple(steps))

    def __str__(self) -> str:
        steps = (f"{caller}" + ("" if times is None else f" times {times}") for caller, times in self.steps)
        return section("schedule", *steps)

def _dealt(numbers: Sequence[int], shares: Sequence[float]) -> List[Sequence[int]]:
    """The numbers in parts that follow one another, as long as these shares are to one another."""
    ends = [round(len(numbers) * sum(shares[:count]) / sum(shares)) for count in range(len(shares) + 1)]
    return [numbers[begin:end] for begin, end in zip(ends, ends[1:])]
