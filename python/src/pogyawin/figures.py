"""Nodes to make shapes of, and numbers that a seed draws, the same on each machine and with each Python."""

from typing import Iterable, List, Set, Tuple, TypeVar

T = TypeVar("T")
Node = Tuple[int, int]
DIRECTIONS = ((1, 0), (0, 1), (-1, 1), (-1, 0), (0, -1), (1, -1))

class Draws:
    """Draws whole numbers from a seed, which is a whole number, by PCG32 (M. E. O'Neill).
    `Draws(7).below(6) == Draws(7).below(6)`"""

    def __init__(self, seed: int, sequence: int = 54) -> None:
        self._state, self._step = 0, (sequence << 1 | 1) % 2**64
        self.word()
        self._state = (self._state + seed) % 2**64
        self.word()

    def word(self) -> int:
        """The next number of 32 bits. `Draws(42).word() == 0xA15C02B7`"""
        state = self._state
        self._state = (state * 6364136223846793005 + self._step) % 2**64
        mixed, turns = ((state >> 18 ^ state) >> 27) % 2**32, state >> 59
        return (mixed >> turns | mixed << (-turns & 31)) % 2**32

    def below(self, bound: int) -> int:
        """The next number from 0 to `bound` - 1, where `bound` is at most 2 ** 32. `Draws(7).below(1) == 0`"""
        return self.word() * bound >> 32

    def shuffled(self, items: Iterable[T]) -> List[T]:
        """The same items in an order that is drawn. `sorted(Draws(7).shuffled("cab")) == ["a", "b", "c"]`"""
        mixed = list(items)
        for last in range(len(mixed) - 1, 0, -1):
            other = self.below(last + 1)
            mixed[last], mixed[other] = mixed[other], mixed[last]
        return mixed

def neighbours(node: Node) -> List[Node]:
    """The six nodes around a node, by direction. `neighbours((2, 3))[2] == (1, 4)`"""
    return [(node[0] + x, node[1] + y) for x, y in DIRECTIONS]

def row(count: int) -> List[Node]:
    """So many nodes in direction 0. `row(3) == [(0, 0), (1, 0), (2, 0)]`"""
    return [(x, 0) for x in range(count)]

def ring(radius: int) -> List[Node]:
    """The nodes at that distance from (0, 0), which is not in it, one after another. `len(ring(2)) == 12`"""
    node, nodes = (radius, 0), [] if radius else [(0, 0)]
    for x, y in DIRECTIONS[2:] + DIRECTIONS[:2]:
        for _ in range(radius):
            nodes.append(node)
            node = (node[0] + x, node[1] + y)
    return nodes

def hexagon(radius: int) -> List[Node]:
    """All nodes up to that distance from (0, 0), ring by ring. `len(hexagon(2)) == 19`"""
    return [node for each in range(radius + 1) for node in ring(each)]

def parallelogram(width: int, height: int) -> List[Node]:
    """So many rows of so many nodes. `parallelogram(2, 2) == [(0, 0), (1, 0), (0, 1), (1, 1)]`"""
    return [(x, y) for y in range(height) for x in range(width)]

def triangle(side: int) -> List[Node]:
    """A triangle with so many nodes on each side, row by row. `triangle(2) == [(0, 0), (1, 0), (0, 1)]`"""
    return [(x, y) for y in range(side) for x in range(side - y)]

def blob(count: int, seed: int) -> List[Node]:
    """So many connected nodes: each next one is a neighbour of those before, which the seed draws. `len(blob(50, 1)) == 50`"""
    return _grown(count, seed, 6)

def tree(count: int, seed: int) -> List[Node]:
    """The same where each next one has just one neighbour before it, so there is no cycle. `len(tree(50, 1)) == 50`"""
    return _grown(count, seed, 1)

def with_holes(nodes: Iterable[Node], count: int, seed: int) -> List[Node]:
    """The nodes without so many that the seed draws, each with six neighbours that stay. So it stays connected.
    Raises `ValueError` where there is no place for so many holes. `len(with_holes(hexagon(3), 2, seed=1)) == 35`"""
    kept, draws = list(nodes), Draws(seed)
    there: Set[Node] = set(kept)
    for _ in range(count):
        inner = [node for node in kept if there.issuperset(neighbours(node))]
        if not inner:
            raise ValueError(f"there is no place for {count} holes in {len(kept)} nodes")
        node = inner[draws.below(len(inner))]
        kept.remove(node)
        there.remove(node)
    return kept

def around(nodes: Iterable[Node], distance: int = 1) -> List[Node]:
    """The nodes outside at that distance from the nearest one, for walls round a shape. `len(around(row(1))) == 6`"""
    there = set(nodes)
    outside = _outside(there, distance)
    near, newest = set(there), set(there)
    for _ in range(distance):
        newest = {node for each in newest for node in neighbours(each)} - near
        near |= newest
    return sorted(newest & outside)

def inside(nodes: Iterable[Node]) -> List[Node]:
    """The nodes that they enclose, for walls inside a shape. `inside(ring(1)) == [(0, 0)]`"""
    there = set(nodes)
    return sorted(_box(there, 1) - there - _outside(there, 1))

def _box(there: Set[Node], margin: int) -> Set[Node]:
    xs, ys = zip(*there)
    return {(x, y) for x in range(min(xs) - margin, max(xs) + margin + 1)
            for y in range(min(ys) - margin, max(ys) + margin + 1)}

def _outside(there: Set[Node], margin: int) -> Set[Node]:
    """The nodes up to so many beside them that are reached from far away, from the corner of the box."""
    free, reached = _box(there, margin) - there, set()
    todo = [min(free)]
    while todo:
        node = todo.pop()
        if node in free:
            free.remove(node)
            reached.add(node)
            todo += neighbours(node)
    return reached

def _grown(count: int, seed: int, most: int) -> List[Node]:
    """Connected nodes, each of which had 1 to `most` neighbours among those before it."""
    draws, nodes = Draws(seed), [(0, 0)][:count]
    there, border = set(nodes), neighbours((0, 0))
    while len(nodes) < count:
        at = draws.below(len(border))
        border[at], border[-1] = border[-1], border[at]
        node = border.pop()
        if node not in there and len(there.intersection(neighbours(node))) <= most:
            nodes.append(node)
            there.add(node)
            border += [other for other in neighbours(node) if other not in there]
    return nodes
