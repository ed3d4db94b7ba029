"""Calls of the program, and how they may end."""

import contextlib
import io
import json
import os
import pathlib
import pickle
import re
import tempfile
import types
import unittest
from dataclasses import replace
from unittest import mock

import pogyawin
from common import LIGHT, TOP, example, program
from pogyawin import Differs, Document, Lists, Refused, Shape, call, read, run
from pogyawin.__main__ import main


class Calls(unittest.TestCase):
    """Each call has the meaning of its command: the answers are those that the examples were worked out to give."""

    def test_answers(self):
        self.assertEqual(pogyawin.replay(read(example("replay_agrees"))), 2)
        self.assertEqual(pogyawin.rounds(read(example("rounds_erosion"))), (2, 0))
        self.assertEqual(pogyawin.elect(read(example("elect_ring"))), (6, None))
        led = (TOP / "examples/elect_square.amoebot.stdout").read_text().split()
        self.assertEqual(pogyawin.elect(read(example("elect_square"))), (int(led[1]), int(led[3])))
        self.assertEqual(pogyawin.measure(read(example("measure_hexagon"))).hexagon, True)
        self.assertEqual(pogyawin.measure(read(example("measure_split"))).connected, False)
        back = Shape.parse((TOP / "examples/rewind_first.amoebot.stdout").read_text())
        self.assertEqual(pogyawin.rewind(read(example("rewind_first")), 0), back)
        self.assertEqual(pogyawin.sample(7)["connected"], "yes")
        self.assertEqual(pogyawin.check(LIGHT).text.splitlines()[:2], ["program", "guard off"])

    def test_a_run_may_have_been_run_before(self):
        once = run(LIGHT)
        self.assertEqual(run(once), once)
        self.assertEqual(pogyawin.tickets(once), once)

    def test_faults_are_exceptions(self):
        with self.assertRaises(Differs) as differs:
            pogyawin.replay(read(example("light_tampered")))
        self.assertEqual(f"differs {differs.exception.place}\n", (TOP / "examples/light_tampered.amoebot.stdout").read_text())
        with self.assertRaises(Refused) as refused:
            pogyawin.elect(read(example("elect_other")))
        self.assertEqual((refused.exception.line, refused.exception.kind), (0, "NotErosion"))
        self.assertRaises(pogyawin.WrongWords, call, "ran")
        self.assertRaises(Refused, pogyawin.interleave, LIGHT)
        self.assertRaises(Refused, pogyawin.rewind, run(replace(LIGHT, version=3)), 3)

    def test_old_values_that_differ(self):
        document = read(example("old_values_tampered"))
        with self.assertRaises(Differs) as differs:
            list(document.shapes())
        with self.assertRaises(Differs) as asked:
            pogyawin.replay(document)
        self.assertEqual(differs.exception.place, asked.exception.place)


class Endings(unittest.TestCase):
    """Each status has its exception. A stand-in for the program ends with it."""

    def stand_in(self, body):
        folder = tempfile.TemporaryDirectory()
        self.addCleanup(folder.cleanup)
        file = pathlib.Path(folder.name, "amoebot")
        file.write_text(f"#!/bin/sh\n[ $# -gt 0 ] || exit 2\n{body}\n")
        file.chmod(0o755)
        return mock.patch.dict(os.environ, AMOEBOT=str(file))

    def test_statuses(self):
        wanted = {2: pogyawin.WrongWords, 4: pogyawin.ReadFault, 5: pogyawin.WriteFault, 6: pogyawin.OutOfMemory,
                  8: pogyawin.UnreadableWords, 9: pogyawin.NoProgram, 3: pogyawin.CallError,
                  7: pogyawin.CallError, 77: pogyawin.CallError}
        for status, kind in wanted.items():
            with self.subTest(status), self.stand_in(f"exit {status}"), self.assertRaises(kind) as ended:
                call("run")
            self.assertIs(type(ended.exception), kind)
        with self.stand_in("kill -9 $$"), self.assertRaises(pogyawin.CallError) as ended:
            call("run")
        self.assertIn("-9", str(ended.exception))

    def test_a_limit_of_time(self):
        with self.stand_in("exec sleep 60"), self.assertRaises(pogyawin.TimedOut) as ended:
            run(LIGHT, seconds=0.2)
        self.assertIn("0.2", str(ended.exception))

    def test_no_program(self):
        for name in ("/nowhere/amoebot", "/bin/true"):
            with self.subTest(name), mock.patch.dict(os.environ, AMOEBOT=name), self.assertRaises(pogyawin.NoProgram) as none:
                call("check", text="amoebot 1 program end")
            self.assertIn(name, str(none.exception))

    def test_exceptions_can_be_sent(self):
        for error in (Refused(5, "BadByte"), Differs(3), pogyawin.TimedOut(2.5), pogyawin.OutOfMemory()):
            again = pickle.loads(pickle.dumps(error))
            self.assertEqual((type(again), again.args, str(again), vars(again)), (type(error), error.args, str(error), vars(error)))


class Docstrings(unittest.TestCase):
    """Each public name has a docstring with an example, each public method too, and each example is true."""

    def test_examples(self):
        ring = pogyawin.Document.parse(example("elect_ring"))
        names = {**vars(pogyawin), "json": json, "os": os, "replace": replace, "LIGHT": LIGHT, "RING": ring, "main": main}
        for module in (pogyawin.status, pogyawin.tokens):
            names.update(vars(module))
        tried = 0
        for name, value in self.public():
            with self.subTest(name):
                examples = [each for each in value.__doc__.split("`")[1::2] if re.search(r" [=!]= |^\w.*\(.*\)$", each)]
                self.assertTrue(examples, f"{name} has no example")
                for each in examples:
                    tried += 1
                    with contextlib.redirect_stdout(io.StringIO()):
                        self.assertTrue(eval(each, dict(names)), each)
        self.assertGreater(tried, 70)

    def public(self):
        """The public names of the package, and the public methods of its classes that say what they do."""
        yield "main", main
        internal = {"Tokens": None}
        for name in pogyawin.__all__:
            value = getattr(pogyawin, name)
            if not callable(value) or type(value).__module__ == "typing":
                continue
            yield name, value
            for method, function in vars(value).items() if isinstance(value, type) and name not in internal else ():
                function = getattr(function, "__func__", getattr(function, "fget", function))
                if isinstance(function, types.FunctionType) and method[0] != "_" and method not in ("take", "to_frame"):
                    yield f"{name}.{method}", function


if __name__ == "__main__":
    unittest.main()
