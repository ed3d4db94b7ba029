"""Documents: a program with its shape, lists and schedule, and what a run made of them."""

from __future__ import annotations

import re
from dataclasses import dataclass, replace
from typing import Any, Callable, Dict, Iterator, Optional, Tuple

from .journal import Body, Entry, Mark
from .lists import Lists, Schedule
from .shape import Shape
from .status import Differs
from .tokens import Tokens, Unread, section, tokens_of

_WORD_OR_COMMENT = re.compile(r"#[^\n]*|[A-Za-z_][A-Za-z0-9_]*")

@dataclass(frozen=True)
class Program:
    """A program: `text` goes from the word `program` up to its `end`, as it was written.
    `Program("program var lit 1 end").variables == {"lit": 1}`"""
    text: str

    @classmethod
    def parse(cls, text: str) -> Program:
        """The program of a text with other sections round it, else `Unread`. `Program.parse(str(LIGHT)) == LIGHT.program`"""
        return cls(text[_place_of_program(text)])

    def __str__(self) -> str:
        return self.text + "\n"

    @property
    def variables(self) -> Dict[str, int]:
        """The largest value of each variable, in the order of the values of an amoebot. `LIGHT.program.variables == {"lit": 1}`"""
        words = list(tokens_of(self.text))
        return {words[at + 1]: int(words[at + 2]) for at, word in enumerate(words) if word == "var"}

    @property
    def actions(self) -> Tuple[str, ...]:
        """The names of the actions; an entry has the place of its action here, from 0 on. `LIGHT.program.actions == ("light",)`"""
        words = list(tokens_of(self.text))
        return tuple(words[at + 1] for at, word in enumerate(words) if word == "action")

    def number_of(self, variable: str) -> int:
        """The place of a variable, from 0 on, else `LookupError`. `LIGHT.program.number_of("lit") == 0`"""
        names = list(self.variables)
        if variable not in names:
            raise LookupError(f"the program has no variable {variable}; it has {', '.join(names) or 'none'}")
        return names.index(variable)

@dataclass(frozen=True)
class Document:
    """A document of any form. Its `str` is its text: the program as it was written, and each other section as the
    program of this repository writes it. Nothing is judged here, but in each call.
    `str(Document(Program("program\\nend"), version=1)) == "amoebot 1\\nprogram\\nend\\n"`"""
    program: Program
    shape: Optional[Shape] = None
    lists: Optional[Lists] = None
    schedule: Optional[Schedule] = None
    journal: Optional[Tuple[Entry, ...]] = None
    final: Optional[Shape] = None
    turns: Optional[Tuple[Mark, ...]] = None
    version: int = 3

    @classmethod
    def parse(cls, text: str) -> Document:
        """The document of a text that is known to be one, else `Unread`; `read` judges too. `Document.parse(str(LIGHT)) == LIGHT`"""
        place = _place_of_program(text)
        header = Tokens(text[:place.start])
        header.word("amoebot")
        return cls(Program(text[place]), version=header.number()).with_sections(text[place.stop:])

    def with_sections(self, text: str) -> Document:
        """This document with the sections of a text, such as what a run wrote, else `Unread`. `LIGHT.with_sections("") == LIGHT`"""
        tokens, read = Tokens(text), self
        readers: Dict[str, Callable[[Tokens], Any]] = {
            "shape": Shape.take, "lists": Lists.take, "schedule": Schedule.take, "final": Shape.take,
            "journal": lambda tokens: tokens.items("entry", lambda tokens: Entry.take(tokens, self.version >= 3)),
            "turns": lambda tokens: tokens.items("turn", Mark.take)}
        while tokens.next:
            word = tokens.word(*readers)
            read = replace(read, **{word: readers[word](tokens)})
        return read

    def without_report(self) -> Document:
        """This document without its journal, last shape and marks. `run(LIGHT).without_report() == LIGHT`"""
        return replace(self, journal=None, final=None, turns=None)

    def __str__(self) -> str:
        parts = [f"amoebot {self.version}\n", self.program, self.shape, self.lists, self.schedule,
                 None if self.journal is None else section("journal", *self.journal),
                 self.final and self.final.section("final"),
                 None if self.turns is None else section("turns", *self.turns)]
        return "".join(str(part) for part in parts if part is not None)

    def shapes(self) -> Iterator[Shape]:
        """The shape at each place, forwards: `shape`, and then the one behind each entry. Old values have to be what
        is there, else it raises `Differs` with the place. All else of the journal is believed: `replay` judges it.
        Raises `ValueError` where there is no shape. `list(run(LIGHT).shapes())[2] == run(LIGHT).final`"""
        if self.shape is None:
            raise ValueError("the document has no shape")
        shape, bots = self.shape, list(self.shape.bots)
        yield shape
        for entry in self.journal or ():
            for cell in entry.cells:
                if isinstance(cell, Body):
                    if cell.before not in (None, bots[cell.bot]):
                        raise Differs(entry.place)
                    bots[cell.bot] = cell.now
            shape = replace(shape, bots=tuple(bots))
            yield shape

    def until(self, place: int) -> Document:
        """The document with its first `place` entries, the shape behind them, and no marks.
        Raises `IndexError` where there are fewer entries. `len(run(LIGHT).until(1).journal) == 1`"""
        part = replace(self, journal=(self.journal or ())[:place], turns=None)
        for final in part.shapes():
            pass
        if place != len(part.journal or ()):
            raise IndexError(f"there is no place {place}: the journal has {len(self.journal or ())} entries")
        return replace(part, final=final)

def _place_of_program(text: str) -> slice:
    begin = -1
    for word in _WORD_OR_COMMENT.finditer(text):
        if word.group() == "program" and begin < 0:
            begin = word.start()
        elif word.group() == "end" and begin >= 0:
            return slice(begin, word.end())
    raise Unread("there is no program up to its end")
