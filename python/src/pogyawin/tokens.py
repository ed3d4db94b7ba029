"""The tokens of a text: words, numbers and signs. Which of them may follow one another, the program says."""

from __future__ import annotations

import re
from typing import Callable, Iterator, Tuple, TypeVar

T = TypeVar("T")
_TOKEN = re.compile(r"[A-Za-z_][A-Za-z0-9_]*|[0-9]+|:=|!=|<=|>=|[^ \t\r\n]")
_DIGITS = frozenset("0123456789")
_LINE = re.compile(r"[^\n]+")

class Unread(ValueError):
    """A text that this package does not read. `Unread("a number is wanted").args == ("a number is wanted",)`"""

def tokens_of(text: str) -> Iterator[str]:
    """The tokens of a text, without its comments. `list(tokens_of("x:=3a # rest")) == ["x", ":=", "3", "a"]`"""
    for line in _LINE.finditer(text):  # no token goes over the end of a line
        yield from _TOKEN.findall(line.group().partition("#")[0])

def section(word: str, *items: object) -> str:
    """The text of a section with these items. `section("lists", "turns 2") == "lists\\nturns 2\\nend\\n"`"""
    return "\n".join([word, *map(str, items), "end", ""])

class Tokens:
    """Takes the tokens of a text one after another. `next` is the one that comes, or empty at the end.
    Each method takes what its name says, and raises `Unread` where another token comes; `has` takes a word only if
    it comes, and `node` two numbers that may have a minus. `Tokens("- 2 3").node() == (-2, 3)`"""

    def __init__(self, text: str) -> None:
        self._rest = tokens_of(text)
        self.next = next(self._rest, "")

    def take(self) -> str:
        taken, self.next = self.next, next(self._rest, "")
        return taken

    def word(self, *wanted: str) -> str:
        if self.next not in wanted:
            raise Unread(f"{' or '.join(wanted)} is wanted, and not {self.next!r}")
        return self.take()

    def has(self, word: str) -> bool:
        return self.next == word and bool(self.take())

    def number(self) -> int:
        if self.next[:1] not in _DIGITS:
            raise Unread(f"a number is wanted, and not {self.next!r}")
        return int(self.take())

    def numbers(self) -> Tuple[int, ...]:
        taken = []
        while self.next[:1] in _DIGITS:
            taken.append(int(self.take()))
        return tuple(taken)

    def node(self) -> Tuple[int, int]:
        x = -self.number() if self.has("-") else self.number()
        return x, -self.number() if self.has("-") else self.number()

    def until(self, *ends: str) -> str:
        """All tokens up to one of these, with a space between them, and a minus directly before its number."""
        taken = []
        while self.next and self.next not in ends:
            taken.append(self.take())
        return " ".join(taken).replace("- ", "-")

    def items(self, word: str, take: Callable[[Tokens], T]) -> Tuple[T, ...]:
        """What `take` makes of the tokens behind each such word, up to the word `end`."""
        found = []
        while self.word(word, "end") == word:
            found.append(take(self))
        return tuple(found)
