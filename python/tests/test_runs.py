"""Runs to rest, what is read from runs, and sweeps."""

import concurrent.futures
import csv
import importlib.util
import io
import json
import unittest
from dataclasses import replace

import pogyawin
from common import EXAMPLES, LIGHT, example, program
from pogyawin import (Document, Ending, Fate, Lists, Refused, Shape, Table, blob, failures, hexagon, measure, read, renew,
                      replay, rewind, rounds, rounds_after, row, run, run_to_rest, series, show, sweep, to_json)

BLINK = program("var m 1 action blink when true do m := 1 - m")
LIGHT_OF = LIGHT.program


def lit(bot):
    """The values of an amoebot under the program of the light."""
    return [bot == 0]


class ToRest(unittest.TestCase):
    """`run_to_rest` ends at rest or stuck, and its document is one run."""

    def test_one_caller_makes_the_journal_of_one_long_run(self):
        for name, nodes, values in (("hexagon", blob(30, 4), lambda bot: (0, 6, 6) if bot else (1, 6, 0)), ("line", row(9), ())):
            with self.subTest(name):
                shape = Shape.of(nodes, values=values, margin=20)
                ended = run_to_rest(show(name), shape, turns=2 * len(nodes))
                self.assertGreater(ended.runs, 3)
                whole = run(Document(show(name), shape, Lists.of_all(shape, 65_536)))
                self.assertEqual([replace(entry, turn=0) for entry in ended.document.journal],
                                 [replace(entry, turn=0) for entry in whole.journal])
                self.assertEqual(ended.document.final, whole.final)
                self.assertEqual(ended.ending, Ending.AT_REST)

    def test_replay_and_rounds_accept_the_joined_journal(self):
        for file in sorted((EXAMPLES / "algorithms").glob("*.amoebot")):
            document = read(file.read_bytes())
            for callers in (1, 3):
                with self.subTest(file.name, callers=callers):
                    ended = run_to_rest(document.program, document.shape, callers=callers, turns=40, entries=400)
                    joined = ended.document
                    self.assertEqual(replay(joined), len(joined.journal))
                    self.assertEqual(read(str(joined)), joined)
                    last = run(Document(joined.program, joined.final, Lists.of_all(joined.final, len(joined.final.bots))))
                    failed = {mark.turn: mark.why for mark in last.turns if mark.fate is Fate.FAILED}
                    if ended.ending is not Ending.LIMIT:
                        self.assertEqual(len(last.journal), 0)
                        self.assertEqual(rounds(joined).waiting, 0)
                        self.assertEqual(ended.failing, failed)
                    self.assertEqual(ended.ending is Ending.STUCK, bool(ended.failing))

    def test_who_fails_for_ever(self):
        text = example("train").replace(" and free head 0", "")
        document = read(text)
        ended = run_to_rest(document.program, document.shape)
        self.assertEqual((ended.ending, ended.failing), (Ending.STUCK, {0: "edge"}))

    def test_a_limit_of_entries(self):
        shape = Shape.of(row(3), values=[0])
        for callers, entries in ((1, 100), (1, 1), (2, 101)):
            with self.subTest(entries):
                ended = run_to_rest(BLINK, shape, callers=callers, entries=entries)
                self.assertEqual(ended.ending, Ending.LIMIT)
                self.assertLessEqual(len(ended.document.journal), entries)
                self.assertEqual(replay(ended.document), len(ended.document.journal))

    def test_nobody(self):
        ended = run_to_rest(LIGHT_OF, replace(LIGHT.shape, bots=()))
        self.assertEqual((ended.ending, ended.document.journal), (Ending.AT_REST, ()))


class Reading(unittest.TestCase):
    """What is read from a run, in two ways each."""

    @classmethod
    def setUpClass(cls):
        document = read((EXAMPLES / "algorithms/caterpillar.amoebot").read_bytes())
        cls.walk = run(replace(document, version=3))

    def test_shapes_forwards_are_those_of_the_way_back(self):
        shapes = list(self.walk.shapes())
        self.assertEqual(len(shapes), len(self.walk.journal) + 1)
        for place in range(0, len(shapes), 5):
            self.assertEqual(shapes[place], rewind(self.walk, place))
        self.assertEqual(shapes[-1], self.walk.final)
        self.assertEqual(shapes, list(replace(run(replace(self.walk, version=1))).shapes()))

    def test_fronts_of_a_run_are_runs(self):
        for place in (0, 7, len(self.walk.journal)):
            self.assertEqual(replay(self.walk.until(place)), place)
        for place in (-1, len(self.walk.journal) + 1):
            self.assertRaises(IndexError, self.walk.until, place)

    def test_rounds_after_each_entry(self):
        shape = Shape.of(blob(12, 1), values=lit)
        for document in (run_to_rest(LIGHT_OF, shape).document, self.walk.until(30)):
            each = [rounds(document.until(place)).rounds for place in range(len(document.journal) + 1)]
            self.assertEqual(rounds_after(document), each)
            self.assertGreater(each[-1], 0)
        self.assertEqual(rounds_after(run(replace(LIGHT, lists=Lists(0)))), [0])

    def test_series(self):
        document = run_to_rest(LIGHT_OF, Shape.of(blob(20, 2), values=lit)).document
        table = series(document, "lit", dark=lambda bot: bot.values[0] == 0)
        self.assertEqual(table.columns, ("place", "lit 0", "lit 1", "dark"))
        self.assertEqual(table.rows, tuple((place, 19 - place, 1 + place, 19 - place) for place in range(20)))
        at = document.journal[4].bot
        one = [value for _, value in series(document, "lit", bot=at).rows]
        self.assertEqual(one, [0] * 5 + [1] * 15)
        self.assertRaises(LookupError, series, document, "lot")
        self.assertEqual([row[1] for row in series(self.walk, expanded=lambda bot: bot.expanded).rows],
                         [sum(bot.expanded for bot in shape.bots) for shape in self.walk.shapes()])

    def test_failures(self):
        """The train without its guard fails from turn 12 on, which a turn of amoebot 0 is: twelve is four times three."""
        ended = run(read(example("train").replace(" and free head 0", "")))
        self.assertEqual(failures(ended).rows, (("edge", 1, 8, 0, 12, 0),))
        both = read(example("train").replace("free head 0", "head 0 . steps = 0").replace("turns 15", "turns 4"))
        self.assertEqual(failures(run(both)).rows, (("no_neighbour", 2, 0, 0, 0, 0),))
        self.assertRaises(ValueError, failures, replace(ended, lists=None))

    def test_json_and_csv(self):
        told = json.loads(to_json(self.walk))
        self.assertEqual(len(told["journal"]), len(self.walk.journal))
        self.assertEqual(told["actions"], list(self.walk.program.actions))
        first, cell = self.walk.journal[0], told["journal"][0]["cells"][-1]
        self.assertEqual(cell["now"]["head"], list(first.cells[-1].now.head))
        self.assertEqual(cell["before"]["chirality"], first.cells[-1].before.chirality.value)
        table = pogyawin.entries(self.walk)
        rows = list(csv.reader(io.StringIO(table.to_csv())))
        self.assertEqual(rows[0], list(table.columns))
        self.assertEqual(rows[1:], [[str(value) for value in row] for row in table.rows])
        self.assertEqual(str(Table(("a", "long"), ((10, 2),))), " a  long\n10     2")

    def test_frames(self):
        if not importlib.util.find_spec("pandas"):
            self.assertRaises(ImportError, Table(("a",), ()).to_frame)
            self.skipTest("there is no pandas here, so no frame was made")
        frame = series(run(LIGHT), "lit").to_frame()
        self.assertEqual(list(frame.columns), ["place", "lit 0", "lit 1"])
        self.assertEqual(frame["lit 1"].tolist(), [1, 2, 3])


class Later:
    """A result of a cluster: a value that is given when it is asked for."""

    def __init__(self, call, item):
        self.result = lambda: call(item)


def moves(document):
    """How many entries a run of a document has."""
    return len(run(document).journal)


class Sweeps(unittest.TestCase):
    """One call for many documents, by several kinds of `map`."""

    documents = [LIGHT, replace(LIGHT, shape=None), replace(LIGHT, lists=Lists(1, ((2,),))), replace(LIGHT, version=9)]

    def expect(self, results):
        self.assertEqual([results[0], results[2]], [2, 0])
        refused = [results[1], results[3]]
        self.assertEqual([type(each) for each in refused], [Refused, Refused])
        self.assertEqual([each.kind for each in refused], ["WrongSection", "BadRange"])

    def test_one_after_another(self):
        self.expect(sweep(moves, self.documents))

    def test_pools(self):
        for kind in (concurrent.futures.ThreadPoolExecutor, concurrent.futures.ProcessPoolExecutor):
            with self.subTest(kind.__name__), kind(2) as pool:
                self.expect(sweep(moves, self.documents, pool.map))

    def test_futures(self):
        self.expect(sweep(moves, self.documents, lambda call, items: [Later(call, item) for item in items]))

    def test_a_worker_that_is_gone(self):
        def lost(call, items):
            later = [Later(call, item) for item in items]
            later[0].result = lambda: 1 / 0
            return later
        results = sweep(moves, self.documents, lost)
        self.assertIsInstance(results[0], ZeroDivisionError)
        self.assertEqual(results[2], 0)

    def test_a_cluster(self):
        if not importlib.util.find_spec("distributed"):
            self.skipTest("there is no distributed here, so no cluster of Dask was asked")
        from distributed import Client, LocalCluster
        with LocalCluster(2, threads_per_worker=1, dashboard_address=None) as cluster, Client(cluster) as client:
            self.expect(sweep(moves, self.documents, client.map))


if __name__ == "__main__":
    unittest.main()
