"""Calls of the program, each with the meaning of the command of its name. `seconds` is a limit by the clock, behind which
it raises `TimedOut`. A call with a status other than 0 raises the exception of that status, such as `Refused`."""

import functools
import os
import pathlib
import re
import subprocess
import sys
from typing import Dict, NamedTuple, Optional, Union

from .document import Document, Program
from .shape import Shape
from .status import NoProgram, TimedOut, WrongWords, error_of

_HERE = pathlib.Path(__file__).resolve()
_LARGE_PAGES = {"GLIBC_TUNABLES": "glibc.malloc.hugetlb=1"}  # as for ./amoebot
_COMMENT, _JOURNAL = re.compile(r"#[^\n]*"), re.compile(r"\bend\s+journal\b")

class Rounds(NamedTuple):
    """How many rounds end within a journal, and for how many amoebots the last one waits. `Rounds(2, 0).waiting == 0`"""
    rounds: int
    waiting: int

class Election(NamedTuple):
    """How many candidates are left, and the number of the leader, or None. `Election(1, 0).leader == 0`"""
    candidates: int
    leader: Optional[int]

class Measures(NamedTuple):
    """How many amoebots there are, and whether the shape is connected, and a hexagon. `Measures(1, True, True).bots == 1`"""
    bots: int
    connected: bool
    hexagon: bool

def executable() -> str:
    """The path of the program: the one that `AMOEBOT` names; in the repository the one of `./amoebot`, which may be built
    first; else the one that came with the package. Raises `NoProgram`. `os.access(executable(), os.X_OK)`"""
    return _started(os.environ.get("AMOEBOT"))

def main() -> int:
    """The command `amoebot`, which becomes the program. `callable(main)`"""
    try:
        os.execve(executable(), ["amoebot", *sys.argv[1:]], {**_LARGE_PAGES, **os.environ})
    except NoProgram as none:
        print(f"amoebot: {none}", file=sys.stderr)
    return NoProgram.status

def call(*words: str, text: str = "", seconds: Optional[float] = None) -> str:
    """What the program writes for these words and this text. `call("show", "line").split()[:2] == ["amoebot", "1"]`"""
    try:
        ended = subprocess.run([executable(), *words], input=text.encode("utf-8", "surrogateescape"),
                               stdout=subprocess.PIPE, env={**_LARGE_PAGES, **os.environ}, timeout=seconds)
    except subprocess.TimeoutExpired:
        raise TimedOut(seconds) from None
    written = ended.stdout.decode("ascii", "replace")
    if ended.returncode == WrongWords.status:
        raise WrongWords(" ".join(words))
    if ended.returncode:
        raise error_of(ended.returncode, written)
    return written

def read(text: Union[str, bytes], *, seconds: Optional[float] = None) -> Document:
    """The document of a text of any form, which the program judges first. `read("amoebot 1 program end").version == 1`"""
    if isinstance(text, bytes):
        text = text.decode("utf-8", "surrogateescape")
    call("measure" if _JOURNAL.search(_COMMENT.sub("", text)) else "check", text=text, seconds=seconds)
    return Document.parse(text)

def run(document: Document, *, seconds: Optional[float] = None) -> Document:
    """The document with the journal, the last shape and the marks of a run of its lists, each in a thread. What it
    has of an earlier run is left out first, as under `tickets` and `interleave`. `len(run(LIGHT).journal) == 2`"""
    return _reported("run", document, seconds)

def tickets(document: Document, *, seconds: Optional[float] = None) -> Document:
    """As `run`, with commits that wait for nobody. `tickets(LIGHT) == run(LIGHT)`"""
    return _reported("tickets", document, seconds)

def interleave(document: Document, *, seconds: Optional[float] = None) -> Document:
    """As `run`, with the steps of its schedule and then rounds of one step for each caller.
    `interleave(replace(LIGHT, schedule=Schedule())).final == run(LIGHT).final`"""
    return _reported("interleave", document, seconds)

def replay(document: Document, *, seconds: Optional[float] = None) -> int:
    """How many entries the journal has, if it is a run; else it raises `Differs`. `replay(run(LIGHT)) == 2`"""
    return int(_answer(call("replay", text=str(document), seconds=seconds))["agrees"])

def renew(document: Document, *, seconds: Optional[float] = None) -> Document:
    """The document in version 3 with old values, without lists, or `Differs`. `renew(run(LIGHT)).version == 3`"""
    return Document.parse(call("renew", text=str(document), seconds=seconds))

def rewind(document: Document, place: int, *, seconds: Optional[float] = None) -> Shape:
    """The shape behind `place` entries of a document of version 3, by the way back, or `Differs`.
    `rewind(renew(run(LIGHT)), 0) == LIGHT.shape`"""
    return Shape.parse(call("rewind", str(place), text=str(document), seconds=seconds))

def rounds(document: Document, *, seconds: Optional[float] = None) -> Rounds:
    """The rounds of a run, or `Differs`. `rounds(run(LIGHT)) == Rounds(2, 0)`"""
    answer = _answer(call("rounds", text=str(document), seconds=seconds))
    return Rounds(int(answer["rounds"]), int(answer["waiting"]))

def elect(document: Document, *, seconds: Optional[float] = None) -> Election:
    """Who leads behind a run of `erosion`; another program is `Refused`. `elect(RING) == Election(6, None)`"""
    answer = _answer(call("elect", text=str(document), seconds=seconds))
    return Election(int(answer["candidates"]), None if answer["leader"] == "none" else int(answer["leader"]))

def measure(document: Document, *, seconds: Optional[float] = None) -> Measures:
    """Measures of the last shape. `measure(LIGHT) == Measures(3, True, False)`"""
    answer = _answer(call("measure", text=str(document), seconds=seconds))
    return Measures(int(answer["bots"]), answer["connected"] == "yes", answer["hexagon"] == "yes")

def check(document: Document, *, seconds: Optional[float] = None) -> Program:
    """The program in its canonical form. `check(LIGHT).actions == ("light",)`"""
    return Document.parse(call("check", text=str(document.without_report()), seconds=seconds)).program

def show(name: str, *, seconds: Optional[float] = None) -> Program:
    """The shipped program `hexagon`, `erosion` or `line`. `show("line").actions == ("out", "follow_up")`"""
    return Document.parse(call("show", name, seconds=seconds)).program

def sample(number: int, *, seconds: Optional[float] = None) -> Dict[str, str]:
    """Runs 150 amoebots on four threads, from a number of 32 bits: what it says of itself. `sample(1)["replay"] == "yes"`"""
    return _answer(call("sample", str(number), seconds=seconds))

def _reported(command: str, document: Document, seconds: Optional[float]) -> Document:
    asked = document.without_report()
    return asked.with_sections(call(command, text=str(asked), seconds=seconds))

def _answer(text: str) -> Dict[str, str]:
    return {name: value for name, value in map(str.split, text.splitlines())}

@functools.lru_cache(maxsize=None)
def _started(named: Optional[str]) -> str:
    chooser, path = _HERE.parents[3] / "tools" / "program", named or str(_HERE.with_name("amoebot"))
    if not named and chooser.is_file():
        path = subprocess.run([chooser], stdin=subprocess.DEVNULL, stdout=subprocess.PIPE, text=True).stdout.strip()
    try:
        status = subprocess.run([path], stdin=subprocess.DEVNULL, stdout=subprocess.DEVNULL).returncode
    except OSError as error:
        raise NoProgram(f"{path or 'none'}: {error.strerror}") from None
    if status != 2:
        raise NoProgram(f"{path} ended with status {status} without words")
    return path
