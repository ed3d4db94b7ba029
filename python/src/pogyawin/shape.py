"""Shapes: an area of the triangular lattice with its walls and amoebots."""

from __future__ import annotations

from dataclasses import dataclass, replace
from enum import Enum
from typing import Callable, Iterable, Sequence, Tuple, Union

from .figures import Draws, Node
from .tokens import Tokens, section

Values = Union[Sequence[int], Callable[[int], Sequence[int]]]

class Chirality(Enum):
    """Which way round an amoebot numbers the directions: as the lattice does, or the other way.
    `Chirality("-") == Chirality.MINUS`"""
    PLUS = "+"
    MINUS = "-"

@dataclass(frozen=True)
class Area:
    """All nodes that there are: the least x and y, and how many nodes wide and high.
    `str(Area(0, -2, 8, 4)) == "area 0 -2 8 4"`"""
    x: int
    y: int
    width: int
    height: int

    def __str__(self) -> str:
        return f"area {self.x} {self.y} {self.width} {self.height}"

@dataclass(frozen=True)
class Bot:
    """An amoebot: the nodes of its head and tail, its rotation in sixths of a turn, its chirality, and the
    values of its variables in the order of the program. `str(Bot((3, 1), (2, 1), values=(5,))) == "3 1 2 1 0 + 5"`"""
    head: Node
    tail: Node
    rotation: int = 0
    chirality: Chirality = Chirality.PLUS
    values: Tuple[int, ...] = ()

    @classmethod
    def take(cls, tokens: Tokens) -> Bot:
        head, tail, rotation = tokens.node(), tokens.node(), tokens.number()
        return cls(head, tail, rotation, Chirality(tokens.word("+", "-")), tokens.numbers())

    def __str__(self) -> str:
        return " ".join(map(str, (*self.head, *self.tail, self.rotation, self.chirality.value, *self.values)))

    @property
    def expanded(self) -> bool:
        """Whether it stands on two nodes. `Bot((1, 0), (0, 0)).expanded == True`"""
        return self.head != self.tail

@dataclass(frozen=True)
class Shape:
    """An area with walls and amoebots, which are numbered from 0. Its `str` is a section `shape`.
    `str(Shape.of([(0, 0)])) == "shape\\narea -1 -1 3 3\\nbot 0 0 0 0 0 +\\nend\\n"`"""
    area: Area
    bots: Tuple[Bot, ...] = ()
    walls: Tuple[Node, ...] = ()

    @classmethod
    def of(cls, nodes: Iterable[Node], *, values: Values = (), walls: Iterable[Node] = (), margin: int = 1) -> Shape:
        """Contracted amoebots on these nodes, in their order. `values` are those of each amoebot, or a function
        from its number. The area goes on for `margin` nodes beside amoebots and walls.
        Raises `ValueError` where there is no node. `Shape.of(row(2), values=lambda bot: [bot]).bots[1].values == (1,)`"""
        bots = tuple(Bot(node, node, values=tuple(map(int, values(number) if callable(values) else values)))
                     for number, node in enumerate(nodes))
        there = tuple(sorted(walls, key=lambda node: node[::-1]))
        xs, ys = zip(*(bot.head for bot in bots), *there)
        left, low = min(xs) - margin, min(ys) - margin
        return cls(Area(left, low, max(xs) + margin + 1 - left, max(ys) + margin + 1 - low), bots, there)

    @classmethod
    def parse(cls, text: str) -> Shape:
        """The shape of a section `shape` or `final`, else `Unread`. `Shape.parse(str(LIGHT.shape)) == LIGHT.shape`"""
        tokens = Tokens(text)
        tokens.word("shape", "final")
        return cls.take(tokens)

    @classmethod
    def take(cls, tokens: Tokens) -> Shape:
        tokens.word("area")
        area, walls = Area(*tokens.node(), tokens.number(), tokens.number()), []
        while tokens.has("wall"):
            walls.append(tokens.node())
        return cls(area, tokens.items("bot", Bot.take), tuple(walls))

    def section(self, word: str) -> str:
        """The text of the shape as a section with that word. `LIGHT.shape.section("final").startswith("final") == True`"""
        walls, bots = (f"wall {x} {y}" for x, y in self.walls), (f"bot {bot}" for bot in self.bots)
        return section(word, self.area, *walls, *bots)

    def __str__(self) -> str:
        return self.section("shape")

    def turned(self, seed: int, *, mirrored: bool = True) -> Shape:
        """The shape with rotations, and if `mirrored` chiralities, which a seed draws. `LIGHT.shape.turned(5) != LIGHT.shape`"""
        draws, sides = Draws(seed), list(Chirality)
        return replace(self, bots=tuple(
            replace(bot, rotation=draws.below(6), chirality=sides[draws.below(2)] if mirrored else bot.chirality)
            for bot in self.bots))
