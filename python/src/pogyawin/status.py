"""How a call may end, other than with status 0: an exception for each status, as docs/FORMAT.md tells them."""

from typing import ClassVar, Dict, Type

class CallError(Exception):
    """The program ended with a status that is not its own, or by a signal, which is a status below 0.
    `status` is the number, and `str` says what it means. `str(OutOfMemory()) == "memory ran out"`"""
    status: ClassVar[int] = 1
    of_status: ClassVar[Dict[int, Type["CallError"]]] = {}

    def __init_subclass__(cls, status: int) -> None:
        cls.status = status
        CallError.of_status[status] = cls

    def __str__(self) -> str:
        meaning = (self.__doc__ or "").partition(".")[0]
        return ": ".join([meaning[:1].lower() + meaning[1:], *map(str, self.args)])

class WrongWords(CallError, status=2):
    """The words are no command. `WrongWords.status == 2`"""

class Refused(CallError, status=3):
    """The text that was sent has a fault: the line of the first one from 1 on, or 0 for the whole text, and its kind.
    `str(Refused(5, "BadByte")) == "refused 5 BadByte" and Refused(5, "BadByte").line == 5`"""

    def __init__(self, line: int, kind: str) -> None:
        super().__init__(line, kind)
        self.line, self.kind = line, kind

    def __str__(self) -> str:
        return f"refused {self.line} {self.kind}"

class ReadFault(CallError, status=4):
    """A read failed. `ReadFault.status == 4`"""

class WriteFault(CallError, status=5):
    """A write failed, so a part of the text is missing. `WriteFault.status == 5`"""

class OutOfMemory(CallError, status=6):
    """Memory ran out. `OutOfMemory.status == 6`"""

class Differs(CallError, status=7):
    """The journal is no run of the model from this place on, which counts from 0. `Differs(3).place == 3`"""

    def __init__(self, place: int) -> None:
        super().__init__(place)
        self.place = place

    def __str__(self) -> str:
        return f"differs {self.place}"

class UnreadableWords(CallError, status=8):
    """The system does not give the words of the command. `UnreadableWords.status == 8`"""

class NoProgram(CallError, status=9):
    """No program is there that starts on this machine; AMOEBOT may name one. `NoProgram.status == 9`"""

class TimedOut(CallError, status=124):
    """The call took longer than its limit, in seconds. `TimedOut(2.5).args == (2.5,)`"""

def error_of(status: int, text: str) -> CallError:
    """The exception for a status and what was written. `error_of(7, "differs 3\\n").args == (3,)`"""
    words = text.split()
    if words[:1] in (["refused"], ["differs"]):
        return Refused(int(words[1]), words[2]) if words[0] == "refused" else Differs(int(words[1]))
    known = CallError.of_status.get(status)
    return known() if known and status not in (Refused.status, Differs.status) else CallError(status)
