"""The command line, `python3 -m pogyawin`: each command has `--help`."""

import argparse
import pathlib
import sys
from concurrent.futures import ThreadPoolExecutor
from typing import Any, Callable, Dict, Optional, Sequence, Tuple

from . import calls, figures, tables
from .document import Document, Program
from .lists import Lists
from .picture import draw, last_shape
from .rest import run_to_rest
from .shape import Shape
from .status import CallError, error_of
from .sweeps import sweep

def main(words: Optional[Sequence[str]] = None) -> int:
    """Does what the words say. The status is 0, or that of the call that failed, or 1. `main(["draw", "/dev/null"]) == 0`"""
    asked = _parser().parse_args(words)
    try:
        sys.stdout.write(asked.does(asked))
        return 0
    except CallError as error:
        print(error, file=sys.stderr)
        return error.status
    except (ValueError, TypeError, LookupError, OSError) as error:
        print(f"pogyawin: {error}", file=sys.stderr)
        return 1

def _text(asked: Any) -> bytes:
    return b"".join(pathlib.Path(file).read_bytes() for file in asked.files) if asked.files else sys.stdin.buffer.read()

def _shape(asked: Any) -> str:
    """Writes a section `shape` and, with --callers, lists by place."""
    seed = [asked.seed] if asked.figure in ("blob", "tree") else []
    nodes = figures.with_holes(getattr(figures, asked.figure)(*asked.size, *seed), asked.holes, asked.seed)
    walls = figures.around(nodes) if asked.walls == "round" else figures.inside(nodes) if asked.walls else []
    of = {0: asked.first} if asked.first else {}
    shape = Shape.of(nodes, values=lambda bot: of.get(bot, asked.values), walls=walls, margin=asked.margin)
    shape = shape.turned(asked.seed) if asked.turned else shape
    return str(shape) + (str(Lists.by_place(shape, asked.callers, asked.turns)) if asked.callers else "")

def _rest(asked: Any) -> str:
    """Runs the program of a document on from its shape to rest, writes the whole run, and says how it ended."""
    document = calls.read(_text(asked))
    ended = run_to_rest(document.program, next(document.shapes()), callers=asked.callers or 1, turns=asked.turns)
    print(ended.ending.value, *(f"{bot} fails: {why}" for bot, why in ended.failing.items()), sep="\n", file=sys.stderr)
    return str(ended.document)

def _series(asked: Any) -> str:
    """Writes how many amoebots have each value of a variable at each place, as CSV; or the value of one, with --bot."""
    return tables.series(calls.read(_text(asked)), asked.variable, asked.bot).to_csv()

def _film(asked: Any) -> str:
    """Draws the shape at each place, or at each so-many-th one."""
    document = calls.read(_text(asked))
    at = asked.variable and document.program.number_of(asked.variable)
    return "".join(f"place {place}\n{draw(shape, at)}"
                   for place, shape in enumerate(document.shapes()) if place % asked.step == 0)

def _draw(asked: Any) -> str:
    """Draws the last shape of a document, or of what a run wrote. A refusal is passed on."""
    text = _text(asked).decode("utf-8", "surrogateescape")
    if text.startswith(("refused ", "differs ")):
        raise error_of(0, text)
    shape = last_shape(text)
    at = asked.variable and Program.parse(text).number_of(asked.variable)
    return draw(shape, at) if shape else "no shape\n"

def _json(asked: Any) -> str:
    """Writes a document as one object of JSON."""
    return tables.to_json(calls.read(_text(asked))) + "\n"

def _sweep(asked: Any) -> str:
    """Makes a call for each file, and writes the answers as CSV. What a run makes of FILE goes to FILE.run."""
    def of_file(file: str) -> object:
        answer = getattr(calls, asked.call)(calls.read(pathlib.Path(file).read_bytes()), seconds=asked.seconds)
        if not isinstance(answer, Document):
            return answer
        pathlib.Path(f"{file}.run").write_text(str(answer))
        return len(answer.journal or ())

    with ThreadPoolExecutor(asked.jobs) as pool:
        answers = sweep(of_file, asked.files, pool.map)
    kinds = (type(answer).__name__ if isinstance(answer, Exception) else "" for answer in answers)
    return tables.Table(("file", "failure", "answer"), tuple(zip(asked.files, kinds, answers))).to_csv()

_FIGURES = ("row", "ring", "hexagon", "parallelogram", "triangle", "blob", "tree")
_CALLS = ("run", "tickets", "interleave", "replay", "renew", "rounds", "elect", "measure")
_WORDS: Dict[str, Tuple[str, Any]] = {
    "figure": ("which figure it is", {"choices": _FIGURES}),
    "size": ("its size: the nodes, the radius, the width and the height, or the side", {"type": int, "nargs": "+"}),
    "--values": ("the values of the variables of each amoebot", {"type": int, "nargs": "*", "default": []}),
    "--first": ("those of amoebot 0, where they are others", {"type": int, "nargs": "+"}),
    "--walls": ("walls round the figure, or in its holes", {"choices": ("round", "inside")}),
    "--turned": ("draw rotations and chiralities", {"action": "store_true"}),
    "--seed": ("the seed of all that is drawn", {"type": int, "default": 0}),
    "--holes": ("how many holes", {"type": int, "default": 0}),
    "--margin": ("how many nodes the area goes on beside the shape", {"type": int, "default": 1}),
    "--callers": ("how many lists", {"type": int}),
    "--turns": ("how many turns each list has; by default 16 for each of its amoebots", {"type": int}),
    "variable": ("the variable", {}),
    "--variable": ("draw the value of this variable in place of the number", {}),
    "--bot": ("the number of an amoebot", {"type": int}),
    "--step": ("draw each so-many-th place", {"type": int, "default": 1}),
    "call": ("the call", {"choices": _CALLS}),
    "--jobs": ("how many calls at once", {"type": int, "default": 1}),
    "--seconds": ("the limit of a call", {"type": float}),
    "files": ("parts of a document; without one, standard input", {"nargs": "*"})}
_COMMANDS: Dict[Callable[[Any], str], str] = {
    _shape: "figure size --values --first --walls --turned --seed --holes --margin --callers --turns",
    _rest: "--callers --turns files", _series: "variable --bot files", _film: "--step --variable files",
    _draw: "--variable files", _json: "files", _sweep: "call --jobs --seconds files"}

def _parser() -> argparse.ArgumentParser:
    parser = argparse.ArgumentParser(prog="python3 -m pogyawin", description="Helps authors of amoebot algorithms.")
    commands = parser.add_subparsers(required=True, metavar="COMMAND")
    for does, words in _COMMANDS.items():
        command = commands.add_parser(does.__name__[1:], help=does.__doc__, description=does.__doc__)
        command.set_defaults(does=does)
        for word in words.split():
            command.add_argument(word, help=_WORDS[word][0], **_WORDS[word][1])
    return parser

if __name__ == "__main__":
    sys.exit(main())
