"""Pictures of shapes in letters."""

import re
from typing import Dict, Optional

from .figures import Node
from .shape import Shape

_SHAPE = re.compile(r"(?:\A|\bend\b)\s*(?:shape|final)\b(.*?)(?=\bend\b)", re.S)
_DIGITS = "0123456789abcdefghijklmnopqrstuvwxyz"

def draw(shape: Shape, variable: Optional[int] = None) -> str:
    """The shape in rows that lean, each with its y before it: an amoebot is the last digit of its number, or the value of
    a variable by its place, up to 35 as a digit or letter and `*` above; a tail is `-`, and a wall is `#`.
    One node of the area is drawn on each side. `draw(Shape.of([(0, 0)], margin=0)) == "    0  0\\nx from 0 to 0\\n"`"""
    if not shape.bots:
        return "no amoebot\n"
    drawn: Dict[Node, str] = dict.fromkeys(shape.walls, "#")
    drawn.update((bot.tail, "-") for bot in shape.bots)
    for number, bot in enumerate(shape.bots):
        value = number % 10 if variable is None else bot.values[variable]
        drawn[bot.head] = _DIGITS[value] if value < len(_DIGITS) else "*"
    area, xs, ys = shape.area, [x for x, _ in drawn], [y for _, y in drawn]
    columns = range(max(area.x, min(xs) - 1), min(area.x + area.width, max(xs) + 2))
    rows = range(max(area.y, min(ys) - 1), min(area.y + area.height, max(ys) + 2))
    lines = [f"{y:5} " + " " * (y - rows[0]) + "".join(" " + drawn.get((x, y), ".") for x in columns)
             for y in reversed(rows)]
    return "\n".join([*lines, f"x from {columns[0]} to {columns[-1]}", ""])

def last_shape(text: str) -> Optional[Shape]:
    """The last shape of a text, of which nothing else is read: a document, a part of one, or what a run wrote.
    Raises `Unread` where that shape is none. `last_shape("shape area 0 0 1 1 end").bots == ()`"""
    found = _SHAPE.findall(re.sub("#[^\n]*", "", text))
    return Shape.parse(f"shape {found[-1]} end") if found else None
