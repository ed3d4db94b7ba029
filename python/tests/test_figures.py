"""Figures, shapes made of them, and what a seed draws."""

import os
import shutil
import subprocess
import sys
import unittest

from common import TOP, program
from pogyawin import (Chirality, Document, Draws, Lists, Shape, around, blob, hexagon, inside, measure, neighbours,
                      parallelogram, ring, row, run, tree, triangle, with_holes)

NONE = program("")


def measured(nodes, **more):
    """What the program says of amoebots on these nodes."""
    return measure(Document(NONE, Shape.of(nodes, **more)))


class Figures(unittest.TestCase):
    """Each has as many nodes as geometry says, and the program says that it is connected."""

    def test_sizes(self):
        for size in range(1, 9):
            with self.subTest(size):
                self.assertEqual(len(set(hexagon(size))), 3 * size * (size + 1) + 1)
                self.assertEqual(len(set(ring(size))), 6 * size)
                self.assertEqual(len(set(triangle(size))), size * (size + 1) // 2)
                self.assertEqual(len(set(parallelogram(size, 3))), 3 * size)
                self.assertEqual(len(set(row(size))), size)

    def test_measures(self):
        for size in range(1, 6):
            with self.subTest(size):
                self.assertEqual(measured(hexagon(size)), (3 * size * (size + 1) + 1, True, True))
                self.assertEqual(measured(ring(size)), (6 * size, True, False))
                self.assertEqual(measured(parallelogram(size + 2, 4)), (4 * size + 8, True, False))
                self.assertEqual(measured(triangle(size + 2))[:2], ((size + 2) * (size + 3) // 2, True))

    def test_a_ring_goes_round(self):
        for one, other in zip(ring(3), ring(3)[1:] + ring(3)[:1]):
            self.assertIn(other, neighbours(one))

    def test_blobs_and_trees(self):
        for seed in range(20):
            with self.subTest(seed):
                self.assertEqual(measured(blob(60, seed)), (60, True, False))
                nodes = tree(60, seed)
                self.assertEqual(measured(nodes)[:2], (60, True))
                edges = sum(other in nodes for node in nodes for other in neighbours(node)) // 2
                self.assertEqual(edges, 59)
        self.assertEqual(len({tuple(blob(20, seed)) for seed in range(20)}), 20)
        self.assertEqual((blob(0, 1), tree(1, 1)), ([], [(0, 0)]))

    def test_holes(self):
        for seed in range(10):
            with self.subTest(seed):
                whole = hexagon(4)
                nodes = with_holes(whole, 3, seed)
                self.assertEqual(measured(nodes)[:2], (len(whole) - 3, True))
                self.assertEqual(set(inside(nodes)), set(whole) - set(nodes))
        self.assertEqual(with_holes(hexagon(1), 1, 0), ring(1))
        self.assertRaises(ValueError, with_holes, hexagon(1), 2, 0)

    def test_walls(self):
        self.assertEqual(set(around([(0, 0)], 2)), set(ring(2)))
        self.assertEqual(set(around(ring(2))), set(ring(3)))
        self.assertEqual(inside(ring(2)), sorted(hexagon(1)))
        self.assertEqual(inside(row(4)), [])
        goes_out = program("action out when contracted and any p in free ( true ) move expand first p in free ( true )")
        for walls, entries in ((around(ring(1)) + inside(ring(1)), 0), (around(ring(1)), 1)):
            shape = Shape.of(ring(1), walls=walls, margin=1)
            self.assertEqual(len(run(Document(goes_out, shape, Lists.of_all(shape))).journal), entries)


class Shapes(unittest.TestCase):
    """Shapes of nodes."""

    def test_the_area_goes_on_beside_all(self):
        shape = Shape.of([(2, 3), (4, 1)], values=[7], walls=[(9, 1), (0, 1), (5, 0)], margin=2)
        self.assertEqual(str(shape.area), "area -2 -2 14 8")
        self.assertEqual(shape.walls, ((5, 0), (0, 1), (9, 1)))
        self.assertEqual([bot.values for bot in shape.bots], [(7,), (7,)])
        self.assertRaises(ValueError, Shape.of, [])

    def test_rotations_and_chiralities(self):
        shape = Shape.of(hexagon(6))
        turned = shape.turned(3)
        self.assertEqual({bot.rotation for bot in turned.bots}, set(range(6)))
        self.assertEqual({bot.chirality for bot in turned.bots}, set(Chirality))
        self.assertEqual(turned, shape.turned(3))
        self.assertNotEqual(turned, shape.turned(4))
        self.assertEqual({bot.chirality for bot in shape.turned(3, mirrored=False).bots}, {Chirality.PLUS})
        self.assertEqual([bot.head for bot in turned.bots], [bot.head for bot in shape.bots])


class Drawing(unittest.TestCase):
    """The same numbers on each machine."""

    def test_numbers_of_pcg32(self):
        """These six are the first ones of the author's own demonstration of PCG32, for the seed 42 and the sequence 54."""
        draws = Draws(42, 54)
        self.assertEqual([draws.word() for _ in range(6)],
                         [0xA15C02B7, 0x7B47F409, 0xBA1D3330, 0x83D2F293, 0xBFA4784B, 0xCBED606E])

    def test_all_is_drawn_alike(self):
        draws = Draws(9)
        counts = [0] * 6
        for _ in range(6000):
            counts[draws.below(6)] += 1
        self.assertTrue(all(850 < count < 1150 for count in counts), counts)
        orders = {tuple(draws.shuffled("abc")) for _ in range(200)}
        self.assertEqual(len(orders), 6)

    def test_other_pythons_draw_the_same(self):
        asked = "from pogyawin import *; print(blob(40, 5), tree(30, 2), with_holes(hexagon(4), 3, 8), Shape.of(row(9)).turned(6))"

        def drawn(python):
            return subprocess.run([python, "-c", asked], stdout=subprocess.PIPE, stderr=subprocess.DEVNULL,
                                  env={**os.environ, "PYTHONPATH": str(TOP / "python/src")}).stdout

        here, tried = drawn(sys.executable), 0
        for python in filter(shutil.which, (f"python3.{minor}" for minor in range(9, 20))):
            if subprocess.run([python, "-c", ""], stderr=subprocess.DEVNULL).returncode == 0:
                tried += python != os.path.basename(os.path.realpath(sys.executable))
                self.assertEqual(drawn(python), here, python)
        if not tried:
            self.skipTest("there is no other Python here, such as python3.9")


if __name__ == "__main__":
    unittest.main()
