"""A companion for authors of amoebot algorithms: documents as values, calls, shapes, runs to rest, series and sweeps.

The program judges each text, and this package has no rules of its own. docs/GUIDE.md leads to a first table.
In the examples of docstrings LIGHT and RING are the documents `light_run` and `elect_ring` of examples/.
"""

from .calls import (Election, Measures, Rounds, call, check, elect, executable, interleave, measure, read, renew, replay, rewind,
                   rounds, run, sample, show, tickets)
from .document import Document, Program
from .figures import (DIRECTIONS, Draws, Node, around, blob, hexagon, inside, neighbours, parallelogram, ring, row, tree, triangle,
                      with_holes)
from .journal import EMPTY, Body, Entry, Fate, Mark, Spot
from .lists import Lists, Schedule
from .picture import draw, last_shape
from .rest import Ending, Rest, run_to_rest
from .tables import Table, entries, failures, rounds_after, series, to_json
from .shape import Area, Bot, Chirality, Shape
from .status import (CallError, Differs, NoProgram, OutOfMemory, ReadFault, Refused, TimedOut, UnreadableWords,
                     WriteFault, WrongWords)
from .sweeps import sweep
from .tokens import Tokens, Unread

__all__ = [name for name in dir() if not name.startswith("_")]
