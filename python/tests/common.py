"""What the tests share: the repository, and calls of the program that do not go through the package."""

import pathlib
import subprocess

import pogyawin

TOP = pathlib.Path(__file__).resolve().parent.parent.parent
EXAMPLES = TOP / "examples"
LIGHT = pogyawin.Document.parse((EXAMPLES / "light_run.amoebot").read_text())


def wrote(words: str, text: str) -> "tuple[int, str]":
    """The status of a call, and what it wrote."""
    ended = subprocess.run([pogyawin.executable(), *words.split()], input=text.encode("utf-8", "surrogateescape"),
                           stdout=subprocess.PIPE, timeout=60)
    return ended.returncode, ended.stdout.decode()


def example(name: str) -> str:
    """The text of an example."""
    return (EXAMPLES / f"{name}.amoebot").read_text()


def program(text: str) -> pogyawin.Program:
    """The program of these variables and actions."""
    return pogyawin.Program(f"program {text} end")
