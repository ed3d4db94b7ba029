"""Documents of up to the largest size, made anew each time, for the measurements and for the merge gate.

A list has each amoebot once, so that the turns go round; each amoebot has 16 turns.
"""

import pathlib
import random

EXAMPLES = pathlib.Path(__file__).resolve().parent.parent / "examples"
TURNS_OF_EACH = 16

OUT = "action out when contracted move expand head 0"
MARK = "var m 1\naction mark when m = 0 do m := 1"
BLINK = "var m 1\naction blink when true do m := 1 - m"


def program_of(example):
    """The program of an example, without the words `program` and `end`."""
    text = next(EXAMPLES.rglob(f"{example}.amoebot")).read_text()
    return text[text.index("program\n") + len("program\n"):text.index("\nend\nshape\n")]


def spread(side):
    """Every other node of every other row."""
    return [(x, y) for y in range(0, side, 2) for x in range(0, side, 2)]


def between(side):
    """Every node of the rows that `spread` leaves empty: half of the area."""
    return [(x, y) for y in range(1, side, 2) for x in range(side)]


def packed(side):
    """A square of half the side in the corner."""
    return [(x, y) for y in range(side // 2) for x in range(side // 2)]


def middle(side):
    """A square of half the side in the middle; the first amoebot is in the middle of it."""
    quarter = side // 4
    nodes = [(x + quarter, y + quarter) for x, y in packed(side)]
    centre = (2 * quarter, 2 * quarter)
    return [centre, *(node for node in nodes if node != centre)]


def document(side, program, nodes, values="", lists=None, turns=None, schedule=None, walls=()):
    """The text of a document with contracted amoebots on these nodes. `values` are the values of each, or a function that gives those of a number.

    With walls it is one of version 2.
    """
    of = values if callable(values) else lambda number: values
    lists = [range(len(nodes))] if lists is None else lists
    lines = [
        "amoebot 2" if walls else "amoebot 1",
        "program",
        program,
        "end",
        "shape",
        f"area 0 0 {side} {side}",
        *(f"wall {x} {y}" for x, y in walls),
        *(f"bot {x} {y} {x} {y} 0 + {of(number)}".rstrip() for number, (x, y) in enumerate(nodes)),
        "end",
        "lists",
        f"turns {TURNS_OF_EACH * len(nodes) if turns is None else turns}",
        *("list " + " ".join(str(number) for number in each) for each in lists),
        "end",
    ]
    if schedule is not None:
        lines += ["schedule", *schedule, "end"]
    return "\n".join(lines) + "\n"


def hexagon(side):
    return document(side, program_of("hexagon"), middle(side), lambda number: "0 6 6" if number else "1 6 0")


def erosion(side):
    return document(side, program_of("erosion"), middle(side), "1 0")


def line(side):
    return document(side, program_of("line"), spread(side))


def walled(side):
    """The document `line` with walls on the rows between. The amoebots stay in their rows, so the entries are the same."""
    return document(side, program_of("line"), spread(side), walls=between(side))


def full_of_walls(side):
    """Each node is a wall, so there is no amoebot."""
    return document(side, MARK, [], lists=[], walls=[(x, y) for y in range(side) for x in range(side)])


def mark(side):
    return document(side, MARK, middle(side), "0")


def blink(side):
    """Each turn commits."""
    return document(side, BLINK, middle(side), "0")


def expands(nodes):
    return lambda side: document(side, OUT, nodes(side))


# For each name the document of a side of the area; the amoebots are a quarter of its nodes. In `walled` the walls are half of them.
RUNS = {
    "spread": expands(spread),
    "packed": expands(packed),
    "hexagon": hexagon,
    "erosion": erosion,
    "line": line,
    "walled": walled,
    "mark": mark,
    "blink": blink,
}


def guarded_row():
    """A row of 100 amoebots with the guard on, of which the first is the seed of a hexagon, in four lists of 4,000 turns each."""
    text = document(
        128,
        program_of("hexagon"),
        [(x, 10) for x in range(14, 114)],
        lambda number: "0 6 6" if number else "1 6 0",
        [range(caller, 100, 4) for caller in range(4)],
        4_000,
    )
    return text.replace("area 0 0 128 128\n", "area 0 0 128 21\n")


def shifted(count, callers):
    """Lists of all ids, each from a place of its own on."""
    return [[(number + caller * count // callers) % count for number in range(count)] for caller in range(callers)]


def drawn_steps(callers, steps):
    """So many steps of callers that are drawn."""
    drawn = random.Random(1)
    schedule, left = [], steps
    while left:
        times = min(left, drawn.randrange(1, 60))
        schedule.append(f"{drawn.randrange(callers)} times {times}")
        left -= times
    return schedule


def interleaved(side, callers, steps):
    """Callers whose lists hold all ids, and so many steps."""
    nodes = middle(side)
    count = len(nodes)
    return document(side, MARK, nodes, "0", shifted(count, callers), TURNS_OF_EACH * count // callers, drawn_steps(callers, steps))


def walled_interleaved(side, callers, steps):
    """The same with the program, the amoebots and the walls of `walled`."""
    nodes = spread(side)
    count = len(nodes)
    lists, turns = shifted(count, callers), TURNS_OF_EACH * count // callers
    return document(side, program_of("line"), nodes, "", lists, turns, drawn_steps(callers, steps), between(side))


def in_lists(text, callers):
    """The document of one list of all ids, with so many lists in its place, which go through as many turns together: an id is in the list of its remainder."""
    front, back = text[:text.index("lists\n")], text[text.index("lists\n"):].splitlines()
    turns, ids = int(back[1].split()[1]), back[2].split()[1:]
    lists = ["list " + " ".join(ids[caller::callers]) for caller in range(callers)]
    return front + "\n".join(["lists", f"turns {turns // callers}", *lists, "end"]) + "\n"


def in_blocks(text, callers):
    """The same with lists of ids that follow one another, which are rows of amoebots. So those of two lists seldom meet."""
    front, back = text[:text.index("lists\n")], text[text.index("lists\n"):].splitlines()
    turns, ids = int(back[1].split()[1]), back[2].split()[1:]
    size = len(ids) // callers
    lists = ["list " + " ".join(ids[caller * size:(caller + 1) * size]) for caller in range(callers)]
    return front + "\n".join(["lists", f"turns {turns // callers}", *lists, "end"]) + "\n"


def full_journal(version):
    """A run whose text is nearly as long as one can be: an expanded amoebot writes each value of its eight neighbours and of itself, in 65,536 turns.

    Numbers have as many digits as they can have. The nodes lie at the left end of the coordinates, and all other amoebots are far away.
    """
    x, y = -4050, -4050
    near = {(x + end + dx, y + dy) for end in (0, -1) for dx, dy in ((1, 0), (0, 1), (-1, 1), (-1, 0), (0, -1), (1, -1))} - {(x, y), (x - 1, y)}
    far = [(-4096 + column, -4040 + row) for row in range(32) for column in range(128)][:4096 - len(near) - 1]
    names = "abcdefgh"
    actions = []
    for old, new in ((200, 255), (255, 200)):
        others, own = (" ; ".join(f"{port}{name} := {new}" for name in names) for port in ("p . ", ""))
        actions.append(f"action from_{old} when a = {old} do for p in ports ( true ) do {others} od ; {own}")
    values = " ".join(["200"] * len(names))
    bots = [f"bot {a} {b} {a} {b} 5 + {values}" for a, b in [*far, *sorted(near)]]
    return "\n".join([
        f"amoebot {version}", "program", *(f"var {name} 255" for name in names), *actions, "end",
        "shape", "area -4096 -4096 128 128", *bots, f"bot {x} {y} {x - 1} {y} 5 + {values}", "end",
        "lists", "turns 65536", f"list {len(bots)}", "end", "",
    ])


def crowd(side):
    """Of amoebots in the middle the first one writes in each turn, and all others rest: each entry is a round."""
    program = "var m 1\nvar acts 1\naction set when acts = 1 and m = 0 do m := 1\naction clear when acts = 1 and m = 1 do m := 0"
    nodes = middle(side)
    return document(side, program, nodes, lambda number: "0 0" if number else "0 1", [[0]], TURNS_OF_EACH * len(nodes))


def filled(size=1_048_576):
    """A small document of one mebibyte, nearly all of it comments and blanks."""
    text = document(8, OUT, [(2, 3)])
    filling = "# a comment that means nothing, up to the end of its line\n" + " " * 40 + "\n"
    rest = size - len(text)
    return filling * (rest // len(filling)) + " " * (rest % len(filling)) + text


def long_program(size=1_048_576):
    """A program of one mebibyte: 32 actions of 64 statements, each with a long sum."""
    each = (size - 4_000) // (32 * 64)
    term = " - 65535"
    statement = "m := mod6 ( m" + term * ((each - 20) // len(term)) + " )"
    actions = [f"action a{number} when m = {number}\ndo " + " ;\n".join([statement] * 64) for number in range(32)]
    text = "amoebot 1\nprogram\nvar m 40\n" + "\n".join(actions) + "\nend\n"
    return text + " " * (size - len(text))
