"""The command line, and an installation in an environment of its own."""

import contextlib
import io
import json
import os
import pathlib
import shutil
import subprocess
import sys
import tempfile
import unittest
from unittest import mock

from common import LIGHT, TOP, example
from pogyawin import Shape, read, replay, rewind, run
from pogyawin.__main__ import main

SOURCES = str(TOP / "python/src")


def asked(*words, text=""):
    """The status of a call of the command line, what it wrote, and what it said."""
    read, wrote, told = io.TextIOWrapper(io.BytesIO(text.encode())), io.StringIO(), io.StringIO()
    with mock.patch("sys.stdin", read), contextlib.redirect_stdout(wrote), contextlib.redirect_stderr(told):
        try:
            status = main(words)
        except SystemExit as ended:
            status = ended.code
    return status, wrote.getvalue(), told.getvalue()


class Commands(unittest.TestCase):
    """Each command of `python3 -m pogyawin`."""

    def test_help(self):
        for command in ("shape", "rest", "series", "film", "json", "sweep", "draw"):
            with self.subTest(command):
                status, told, _ = asked(command, "--help")
                self.assertEqual(status, 0)
                self.assertIn(f"pogyawin {command}", told)

    def test_as_a_program(self):
        how = {"input": b"refused 6 Unexpected\n", "capture_output": True, "timeout": 60}
        ended = subprocess.run([sys.executable, "-m", "pogyawin", "draw"], env={**os.environ, "PYTHONPATH": SOURCES}, **how)
        self.assertEqual((ended.returncode, ended.stdout, ended.stderr), (3, b"", b"refused 6 Unexpected\n"))

    def test_from_a_shape_to_rest(self):
        program = example("light_program")
        made = asked("shape", "blob", "20", "--seed", "3", "--values", "0", "--first", "1", "--turned", "--callers", "2")
        document = read(program + made[1])
        self.assertEqual(([bot.values for bot in document.shape.bots], len(document.lists.bots)), ([(1,)] + [(0,)] * 19, 2))
        status, whole, told = asked("rest", "--callers", "2", text=program + made[1])
        self.assertEqual((status, told), (0, "at rest\n"))
        self.assertEqual(replay(read(whole)), 19)
        lines = asked("series", "lit", text=whole)[1].splitlines()
        self.assertEqual((lines[0], lines[1], lines[-1]), ("place,lit 0,lit 1", "0,19,1", "19,0,20"))
        self.assertEqual(json.loads(asked("json", text=whole)[1])["final"]["bots"][5]["values"], [1])

    def test_shapes(self):
        for words, nodes in (("hexagon 3 --holes 2", 35), ("ring 2 --walls inside", 12), ("row 5 --walls round", 5),
                             ("parallelogram 4 3", 12), ("triangle 4", 10), ("tree 30", 30)):
            with self.subTest(words):
                shape = Shape.parse(asked("shape", *words.split())[1])
                self.assertEqual((len(shape.bots), bool(shape.walls)), (nodes, "--walls" in words))

    def test_a_film_has_the_shapes_of_the_way_back(self):
        walk = run(read(example("train").replace("amoebot 1", "amoebot 3")))
        parts = asked("film", "--step", "3", text=str(walk))[1].split("place ")[1:]
        wanted = [f"{place}\n" + asked("draw", text=str(rewind(walk, place)))[1] for place in (0, 3, 6)]
        self.assertEqual(parts, wanted)

    def test_draw(self):
        text = str(run(LIGHT))
        picture = "    4    . . . . .\n    3   . {} .\n    2  . . . . .\nx from 1 to 5\n"
        self.assertEqual(asked("draw", text=text)[1], picture.format("0 1 2"))
        self.assertEqual(asked("draw", text=text.replace("\n", "\r\n"))[1], picture.format("0 1 2"))
        self.assertEqual(asked("draw", "--variable", "lit", text=str(LIGHT))[1], picture.format("1 0 0"))
        for line, status in (("refused 6 Unexpected\n", 3), ("differs 3\n", 7)):
            self.assertEqual(asked("draw", text=line), (status, "", line))
        self.assertEqual(asked("draw", "--variable", "lot", text=text)[0], 1)

    def test_a_sweep_with_a_fault(self):
        with tempfile.TemporaryDirectory() as folder:
            files = [f"{folder}/{name}" for name in "abc"]
            for file, text in zip(files, (str(LIGHT), "amoebot 1 program", str(LIGHT))):
                pathlib.Path(file).write_text(text)
            status, table, _ = asked("sweep", "--jobs", "2", "run", *files)
            self.assertEqual(status, 0)
            self.assertEqual(table.replace(f"{folder}/", ""), "file,failure,answer\na,,2\nb,Refused,refused 1 Truncated\nc,,2\n")
            self.assertEqual(read(pathlib.Path(folder, "c.run").read_text()), run(LIGHT))

    def test_faults(self):
        self.assertEqual(asked("rest", text="amoebot 1 program")[::2], (3, "refused 1 Truncated\n"))
        self.assertEqual(asked("rest", text="amoebot 1 program end")[0], 1)
        self.assertEqual(asked("json", "/nowhere")[0], 1)
        self.assertEqual(asked("shape", "row", "3", "4")[0], 1)
        self.assertEqual(asked("film", "--variable", "lot", text=str(LIGHT))[0], 1)
        with mock.patch.dict(os.environ, AMOEBOT="/nowhere"):
            self.assertEqual(asked("json", text=str(LIGHT))[0], 9)


class Installed(unittest.TestCase):
    """`pip install ./python` in a fresh environment, from a copy of the repository that goes away then."""

    def test_install(self):
        if not (TOP / "release/amoebot").is_file() or subprocess.run([TOP / "release/amoebot"], stdin=subprocess.DEVNULL,
                                                                     stdout=subprocess.DEVNULL).returncode != 2:
            self.skipTest("the program of release/ does not start here, so nothing was installed")
        builds = "import ensurepip, setuptools; setuptools.__version__ >= '70.1' or __import__('wheel')"
        pythons = [python for python in (sys.executable, "/usr/bin/python3") if shutil.which(python) and subprocess.run(
            [python, "-c", builds], stderr=subprocess.DEVNULL).returncode == 0]
        if not pythons:
            self.skipTest("there is no setuptools with wheel here, or no ensurepip, so nothing was installed")
        with tempfile.TemporaryDirectory() as made:
            folder = pathlib.Path(made)
            for part in ("python", "release"):
                shutil.copytree(TOP / part, folder / "copy" / part, ignore=shutil.ignore_patterns("build", "*.egg-info", "__pycache__"))
            subprocess.run([pythons[0], "-m", "venv", "--system-site-packages", folder / "env"], check=True, timeout=120)
            python = folder / "env/bin/python"
            quiet = {name: value for name, value in os.environ.items() if name not in ("AMOEBOT", "PYTHONPATH")}
            words = [python, "-m", "pip", "install", "--quiet", "--no-build-isolation", "--no-index", "./python"]
            subprocess.run(words, cwd=folder / "copy", check=True, env=quiet, timeout=120)
            shutil.rmtree(folder / "copy")
            how = {"cwd": folder, "env": quiet, "stdout": subprocess.PIPE, "timeout": 60}
            first = subprocess.run([folder / "env/bin/amoebot", "run"], input=example("first").encode(), **how)
            self.assertEqual((first.returncode, first.stdout.decode()), (0, (TOP / "examples/first.amoebot.stdout").read_text()))
            told = subprocess.run([python, "-c", "import pogyawin; print(pogyawin.executable()); print(pogyawin.sample(1))"], **how)
            self.assertTrue(told.stdout.decode().startswith(str(folder / "env/lib")), told)
            self.assertIn("'replay': 'yes'", told.stdout.decode())
            self.assertEqual(len(list(folder.rglob("site-packages/pogyawin/py.typed"))), 1)
            lost = subprocess.run([folder / "env/bin/amoebot"], **{**how, "env": {**quiet, "AMOEBOT": "/nowhere"}}, stderr=subprocess.PIPE)
            self.assertEqual(lost.returncode, 9)
            self.assertIn("/nowhere", lost.stderr.decode())


if __name__ == "__main__":
    unittest.main()
