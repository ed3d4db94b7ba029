"""A small checker of reports, which knows the model and no claims.

It reads a document and what `run` or `tickets` wrote of it. It shares no code with the program. It is written
from docs/FORMAT.md and docs/MODEL.md, and looks only at documents that have no fault.

`judge` makes the journal again, entry by entry, from the shape of the document. Each entry has to be what the
program decides there, with just its text. Each mark has to be true on the world at its place: Idle and Failed
are decided again. Of Busy the cell has to be in the zone of the turn's amoebot at its place, and in that of
the other turn at the other turn's place. The final shape has to be the last world. With the guard on a
connected shape has to stay connected.
"""

import re

STEPS = [(1, 0), (0, 1), (-1, 1), (-1, 0), (0, -1), (1, -1)]
ENDS = ["head", "tail"]
TOKEN = re.compile(r"#[^\n]*|[A-Za-z_]\w*|\d+|:=|[<>!]=|\S")
SECTIONS = ["program", "shape", "lists", "schedule", "journal", "final", "turns"]


class Wrong(Exception):
    """Why a report is not a good one."""


class Failure(Exception):
    """An evaluation or a movement failed; the word of the failure is its argument."""


# ---- the model

class Bot:
    """An amoebot: its nodes, its rotation, its chirality as 1 or -1, and its values."""

    def __init__(self, head, tail, rot, chir, values):
        self.head, self.tail, self.rot, self.chir, self.values = head, tail, rot, chir, values

    def is_expanded(self):
        return self.head != self.tail

    def nodes(self):
        return [self.head, self.tail] if self.is_expanded() else [self.head]

    def local(self, direction):
        """The local direction of a global one."""
        return (direction - self.rot) * self.chir % 6

    def behind(self, port):
        """The node behind a pair of an end and a local direction."""
        x, y = self.tail if port[0] else self.head
        dx, dy = STEPS[(self.rot + self.chir * port[1]) % 6]
        return x + dx, y + dy

    def has_port(self, port):
        if not self.is_expanded():
            return port[0] == 0
        return self.behind(port) not in (self.head, self.tail)

    def text(self):
        numbers = [*self.head, *self.tail, self.rot, "+" if self.chir == 1 else "-", *self.values]
        return " ".join(str(number) for number in numbers)


ALL_PORTS = [(end, direction) for end in (0, 1) for direction in range(6)]


class World:
    """An area, its walls and amoebots by their numbers."""

    def __init__(self, area, walls, bots):
        self.area, self.walls, self.bots = area, walls, bots
        self.on = {node: number for number, bot in enumerate(bots) for node in bot.nodes()}

    def is_inside(self, node):
        x, y, w, h = self.area
        return x <= node[0] < x + w and y <= node[1] < y + h

    def is_free(self, node):
        return self.is_inside(node) and node not in self.walls and node not in self.on

    def zone(self, number):
        """The cells of an amoebot's zone, as their texts."""
        bot = self.bots[number]
        behind = map(bot.behind, filter(bot.has_port, ALL_PORTS))
        nodes = bot.nodes() + [node for node in behind if self.is_inside(node)]
        spots = {f"spot {x} {y}" for x, y in nodes}
        return spots | {f"body {self.on[node]}" for node in nodes if node in self.on}

    def is_connected(self):
        if not self.on:
            return True
        found = [next(iter(self.on))]
        seen = set(found)
        while found:
            x, y = found.pop()
            for dx, dy in STEPS:
                node = (x + dx, y + dy)
                if node in self.on and node not in seen:
                    seen.add(node)
                    found.append(node)
        return len(seen) == len(self.on)

    def lines(self):
        """The lines of the section `final`, without its first and last ones."""
        walls = [f"wall {x} {y}" for x, y in sorted(self.walls, key=lambda node: (node[1], node[0]))]
        return ["area " + " ".join(map(str, self.area)), *walls, *(f"bot {bot.text()}" for bot in self.bots)]


class Site:
    """What an activation evaluates on: a world, its amoebot, what it wrote so far, and the names in force."""

    def __init__(self, world, number, maxes):
        self.world, self.number, self.maxes = world, number, maxes
        self.bot, self.written, self.names = world.bots[number], {}, {}

    def values(self, number):
        return self.written.get(number) or self.world.bots[number].values

    def write(self, number, variable, value):
        if not 0 <= value <= self.maxes[variable]:
            raise Failure("out_of_range")
        values = list(self.values(number))
        values[variable] = value
        self.written[number] = values

    def node(self, port):
        """The node behind a port, which has to be one."""
        if not self.bot.has_port(port):
            raise Failure("no_port")
        return self.bot.behind(port)

    def peer(self, port):
        """The number of the neighbour behind a port, which has to be there."""
        number = self.world.on.get(self.node(port))
        if number is None:
            raise Failure("no_neighbour")
        return number

    def pairs(self, kind):
        """The ports of a set, in their order."""
        for port in ALL_PORTS:
            if self.bot.has_port(port):
                node = self.bot.behind(port)
                if (node in self.world.on) if kind == "ports" else self.world.is_free(node):
                    yield port

    def after(self, moved, guard):
        """The amoebots that writes and a movement touch, as they are then; the node that changes hands."""
        bots = {}
        for number, values in self.written.items():
            old = self.world.bots[number]
            bots[number] = Bot(old.head, old.tail, old.rot, old.chir, values)
        if moved[0] == "none":
            return bots, None

        def changed(number, head, tail):
            old = self.world.bots[number]
            bots[number] = Bot(head, tail, old.rot, old.chir, self.values(number))

        me = self.bot
        if moved[0] == "contract":
            left, kept = (me.head, me.tail) if moved[1] == "head" else (me.tail, me.head)
            if not me.is_expanded():
                raise Failure("not_expanded")
            ring = [(left[0] + dx, left[1] + dy) in self.world.on for dx, dy in STEPS]
            if guard and (not any(ring) or sum(ring[at] and not ring[at - 1] for at in range(6)) > 1):
                raise Failure("would_split")
            changed(self.number, kept, kept)
            return bots, left
        port = moved[1]
        if moved[0] == "pull":
            if not me.is_expanded():
                raise Failure("not_expanded")
            peer = self.peer(port)
            other = self.world.bots[peer]
            if other.is_expanded():
                raise Failure("peer_not_contracted")
            left, kept = (me.tail, me.head) if port[0] else (me.head, me.tail)
            changed(self.number, kept, kept)
            changed(peer, left, other.head)
            return bots, left
        if me.is_expanded():
            raise Failure("not_contracted")
        if moved[0] == "expand":
            node = self.node(port)
            if not self.world.is_inside(node):
                raise Failure("edge")
            if node in self.world.walls:
                raise Failure("blocked")
            if node in self.world.on:
                raise Failure("occupied")
            changed(self.number, node, me.tail)
            return bots, node
        peer = self.peer(port)
        other, node = self.world.bots[peer], me.behind(port)
        if not other.is_expanded():
            raise Failure("peer_not_expanded")
        kept = other.tail if other.head == node else other.head
        changed(peer, kept, kept)
        changed(self.number, node, me.tail)
        return bots, node


# ---- programs, read into functions of a site

class Reader:
    """Reads a text, token by token."""

    def __init__(self, text):
        self.tokens = [token for token in TOKEN.findall(text) if not token.startswith("#")]
        self.at = 0

    def peek(self, further=0):
        return self.tokens[self.at + further] if self.at + further < len(self.tokens) else ""

    def next(self):
        self.at += 1
        return self.tokens[self.at - 1]

    def takes(self, *words):
        """Goes on over one of these words, if it comes next."""
        if self.peek() in words:
            return self.next()
        return None

    def need(self, word):
        if self.next() != word:
            raise Wrong(f"the checker reads {self.tokens[self.at - 1]!r}, where {word!r} should be")

    def integer(self):
        sign = -1 if self.takes("-") else 1
        return sign * int(self.next())


class Program:
    """A program: its guard, its variables with their maxima, and its actions."""

    def __init__(self, reader):
        self.reader, self.maxes, self.variables, self.actions = reader, [], {}, []
        reader.need("program")
        self.guard = bool(reader.takes("guard")) and reader.next() == "on"
        while reader.takes("var"):
            self.variables[reader.next()] = len(self.maxes)
            self.maxes.append(int(reader.next()))
        while reader.takes("action"):
            reader.next()
            reader.need("when")
            guard = self.expression()
            statements = self.statements() if reader.takes("do") else []
            movement = self.movement() if reader.takes("move") else lambda site: ("none",)
            self.actions.append((guard, statements, movement))
        reader.need("end")

    def movement(self):
        word = self.reader.next()
        if word == "none":
            return lambda site: ("none",)
        if word == "contract":
            end = self.reader.next()
            return lambda site: ("contract", end)
        port = self.port()
        return lambda site: (word, port(site))

    def statements(self):
        found = [self.statement()]
        while self.reader.takes(";"):
            found.append(self.statement())
        return found

    def statement(self):
        reader = self.reader
        if reader.takes("let"):
            name = reader.next()
            reader.need(":=")
            port = self.port()
            return lambda site: site.names.__setitem__(name, port(site))
        if reader.takes("if"):
            condition = self.expression()
            reader.need("then")
            yes = self.statements()
            no = self.statements() if reader.takes("else") else []
            reader.need("fi")
            return lambda site: run_all(yes if condition(site) else no, site)
        if reader.takes("for"):
            name, kind, condition = self.selection()
            reader.need("do")
            body = self.statements()
            reader.need("od")

            def each(site):
                for port in site.pairs(kind):
                    site.names[name] = port
                    if condition(site):
                        run_all(body, site)
            return each
        if reader.peek(1) == ":=":
            variable = self.variables[reader.next()]
            reader.need(":=")
            value = self.sum()
            return lambda site: site.write(site.number, variable, value(site))
        port = self.port()
        reader.need(".")
        variable = self.variables[reader.next()]
        reader.need(":=")
        value = self.sum()

        def write(site):
            pair, number = port(site), value(site)
            site.write(site.peer(pair), variable, number)
        return write

    def selection(self):
        name = self.reader.next()
        self.reader.need("in")
        kind = self.reader.next()
        self.reader.need("(")
        condition = self.expression()
        self.reader.need(")")
        return name, kind, condition

    def chosen(self, name, kind, condition):
        """A function that goes over the ports of a set, each with whether the condition is true there."""
        def each(site):
            for port in site.pairs(kind):
                site.names[name] = port
                yield port, condition(site)
        return each

    def expression(self):
        parts = [self.conjunction()]
        while self.reader.takes("or"):
            parts.append(self.conjunction())
        return parts[0] if len(parts) == 1 else lambda site: any(part(site) for part in parts)

    def conjunction(self):
        parts = [self.unit()]
        while self.reader.takes("and"):
            parts.append(self.unit())
        return parts[0] if len(parts) == 1 else lambda site: all(part(site) for part in parts)

    def unit(self):
        reader = self.reader
        word = reader.peek()
        if reader.takes("true", "false"):
            return lambda site: word == "true"
        if reader.takes("contracted", "expanded"):
            return lambda site: site.bot.is_expanded() == (word == "expanded")
        if reader.takes("not"):
            inside = self.unit()
            return lambda site: not inside(site)
        if reader.takes("("):
            inside = self.expression()
            reader.need(")")
            return inside
        if reader.takes("any", "all"):
            each = self.chosen(*self.selection())
            if word == "any":
                return lambda site: any(found for _, found in each(site))
            return lambda site: all(found for _, found in each(site))
        if reader.takes("linked", "free", "at_head", "peer_expanded", "peer_head"):
            port = self.port()
            return lambda site: is_so(word, site, port(site))
        left = self.sum()
        compare = reader.next()
        right = self.sum()
        return lambda site: is_compared(left(site), compare, right(site))

    def sum(self):
        sign = -1 if self.reader.takes("-") else 1
        parts = [(sign, self.term())]
        while self.reader.peek() in ("+", "-"):
            sign = 1 if self.reader.next() == "+" else -1
            parts.append((sign, self.term()))
        return lambda site: sum(sign * part(site) for sign, part in parts)

    def term(self):
        reader = self.reader
        word = reader.peek()
        if word.isdigit():
            number = int(reader.next())
            return lambda site: number
        if reader.takes("count"):
            each = self.chosen(*self.selection())
            return lambda site: sum(1 for _, found in each(site) if found)
        if reader.takes("dir", "peer_dir"):
            port = self.port()
            return lambda site: direction_of(word, site, port(site))
        if reader.takes("inner"):
            return inner
        if reader.takes("mod6"):
            reader.need("(")
            inside = self.sum()
            reader.need(")")
            return lambda site: inside(site) % 6
        if word in ("head", "tail", "turn", "first") or reader.peek(1) == ".":
            port = self.port()
            reader.need(".")
            variable = self.variables[reader.next()]
            return lambda site: site.values(site.peer(port(site)))[variable]
        variable = self.variables[reader.next()]
        return lambda site: site.values(site.number)[variable]

    def port(self):
        reader = self.reader
        word = reader.next()
        if word in ENDS:
            end = ENDS.index(word)
            if reader.peek().isdigit():
                direction = int(reader.next())
                return lambda site: (end, direction)
            variable = self.variables[reader.next()]
            return lambda site: (end, small(site.values(site.number)[variable]))
        if word == "turn":
            port = self.port()
            by = int(reader.next())

            def turned(site):
                end, direction = port(site)
                return end, (direction + by) % 6
            return turned
        if word == "first":
            each = self.chosen(*self.selection())

            def first(site):
                for port, found in each(site):
                    if found:
                        return port
                raise Failure("no_choice")
            return first
        return lambda site: site.names[word]

    def verdict(self, world, number):
        """What it decides: ("idle",), ("failed", why) or ("change", action, moved, amoebots, node)."""
        site = Site(world, number, self.maxes)
        try:
            for at, (guard, statements, movement) in enumerate(self.actions):
                if guard(site):
                    run_all(statements, site)
                    moved = movement(site)
                    return "change", at, moved, *site.after(moved, self.guard)
        except Failure as failure:
            return "failed", failure.args[0]
        return ("idle",)


def run_all(statements, site):
    for statement in statements:
        statement(site)


def small(direction):
    """A direction that is a value: above 5 there is no port."""
    if direction > 5:
        raise Failure("no_port")
    return direction


def is_compared(left, compare, right):
    if compare in ("=", "!="):
        return (left == right) == (compare == "=")
    return {"<": left < right, "<=": left <= right, ">": left > right, ">=": left >= right}[compare]


def is_so(word, site, port):
    node = site.node(port)
    if word == "linked":
        return node in site.world.on
    if word == "free":
        return site.world.is_free(node)
    if word == "at_head":
        return port[0] == 0
    other = site.world.bots[site.peer(port)]
    return other.is_expanded() if word == "peer_expanded" else other.head == node


def direction_of(word, site, port):
    node = site.node(port)
    if word == "dir":
        return port[1]
    other = site.world.bots[site.peer(port)]
    mine = site.bot.tail if port[0] else site.bot.head
    return other.local(STEPS.index((mine[0] - node[0], mine[1] - node[1])))


def inner(site):
    bot = site.bot
    if not bot.is_expanded():
        raise Failure("not_expanded")
    return bot.local(STEPS.index((bot.head[0] - bot.tail[0], bot.head[1] - bot.tail[1])))


# ---- documents and reports

class Document:
    """A document of the form Run that has no fault."""

    def __init__(self, text):
        reader = Reader(text)
        reader.need("amoebot")
        self.version = int(reader.next())
        self.program = Program(reader)
        reader.need("shape")
        reader.need("area")
        area = [reader.integer() for _ in range(4)]
        walls, bots = set(), []
        while reader.takes("wall"):
            walls.add((reader.integer(), reader.integer()))
        while reader.takes("bot"):
            head, tail = (reader.integer(), reader.integer()), (reader.integer(), reader.integer())
            rot, chir = int(reader.next()), 1 if reader.next() == "+" else -1
            bots.append(Bot(head, tail, rot, chir, [int(reader.next()) for _ in self.program.maxes]))
        reader.need("end")
        self.world = World(area, walls, bots)
        reader.need("lists")
        reader.need("turns")
        self.turns, self.lists = int(reader.next()), []
        while reader.takes("list"):
            self.lists.append([int(reader.next())])
            while reader.peek().isdigit():
                self.lists[-1].append(int(reader.next()))
        reader.need("end")

    def bot_of(self, caller, turn):
        """The amoebot of a caller's turn."""
        if not (0 <= caller < len(self.lists) and 0 <= turn < self.turns):
            raise Wrong(f"there is no turn {turn} of caller {caller}")
        return self.lists[caller][turn % len(self.lists[caller])]


def sections_of(text, names):
    """The lines of these sections, which stand one after another and are all of the text."""
    lines, found = text.split("\n"), []
    if lines.pop() != "":
        raise Wrong("the text has no line feed at its end")
    for name in names:
        if name not in lines or lines.index(name) != 0 or "end" not in lines:
            raise Wrong(f"there is no section {name}")
        end = lines.index("end")
        found.append(lines[1:end])
        lines = lines[end + 1:]
    if lines:
        raise Wrong(f"a line stands behind the sections: {lines[0]}")
    return found


def moved_text(moved):
    if moved[0] == "none":
        return "none"
    if moved[0] == "contract":
        return f"contract {moved[1]}"
    return f"{moved[0]} {ENDS[moved[1][0]]} {moved[1][1]}"


def make_entry(document, world, verdict):
    """Makes a change in the world, and gives the text of its action, its movement and its pairs."""
    _, action, moved, bots, node = verdict
    old_bots = {number: world.bots[number].text() for number in bots}
    old_occupant = world.on.get(node) if node else None
    for number in bots:
        for own in world.bots[number].nodes():
            world.on.pop(own, None)
    for number, bot in bots.items():
        world.bots[number] = bot
        for own in bot.nodes():
            world.on[own] = number
    words, has_old = [str(action), moved_text(moved)], document.version == 3
    name = lambda occupant: "empty" if occupant is None else str(occupant)
    if node and world.on.get(node) != old_occupant:
        old = f"{name(old_occupant)} to " if has_old else ""
        words.append(f"spot {node[0]} {node[1]} {old}{name(world.on.get(node))}")
    for number in sorted(bots):
        new = bots[number].text()
        if new != old_bots[number]:
            words.append(f"body {number} " + (f"{old_bots[number]} to " if has_old else "") + new)
    return " ".join(words)


def read_marks(document, lines):
    """The marks by caller and turn, each as its words."""
    marks = {}
    turns = [(caller, turn) for caller in range(len(document.lists)) for turn in range(document.turns)]
    if len(lines) != len(turns):
        raise Wrong(f"there are {len(lines)} lines of turns")
    for line, (caller, turn) in zip(lines, turns):
        words = line.split(" ")
        if words[:3] != ["turn", str(caller), str(turn)]:
            raise Wrong(f"a line of the turns: {line}")
        marks[caller, turn] = words[3:]
    return marks


def place_of(mark):
    return int(mark[-1])


def questions_of(document, marks, entries):
    """What has to be so at each place: ("idle", bot), ("failed", bot, why) or ("zone", bot, cell)."""
    asked = [[] for _ in range(entries + 1)]
    for (caller, turn), mark in marks.items():
        bot, place = document.bot_of(caller, turn), place_of(mark)
        if not 0 <= place <= entries:
            raise Wrong(f"turn {caller} {turn} is at place {place}")
        if mark[0] == "idle" and len(mark) == 2:
            asked[place].append(("idle", bot))
        elif mark[0] == "failed" and len(mark) == 3:
            asked[place].append(("failed", bot, mark[1]))
        elif mark[0] == "busy" and mark[-6] == "by" and mark[-2] == "place":
            cell, (by, its_turn, its_bot) = " ".join(mark[1:-6]), map(int, mark[-5:-2])
            if by == caller or document.bot_of(by, its_turn) != its_bot:
                raise Wrong(f"turn {caller} {turn} is busy by a turn that is none")
            asked[place].append(("zone", bot, cell))
            asked[place_of(marks[by, its_turn])].append(("zone", its_bot, cell))
        elif mark[0] != "done" or len(mark) != 2:
            raise Wrong(f"the mark of turn {caller} {turn}: {mark}")
    return asked


def check_order(document, marks):
    """Places never fall along the turns of a caller, and after Done they are above its entry."""
    for caller in range(len(document.lists)):
        least = 0
        for turn in range(document.turns):
            mark = marks[caller, turn]
            if place_of(mark) < least:
                raise Wrong(f"turn {caller} {turn} is before an earlier one")
            least = place_of(mark) + (mark[0] == "done")


def check_place(document, world, questions, place):
    """The questions of a place have the right answers in its world."""
    zones = {}
    for kind, bot, *rest in questions:
        if kind == "zone":
            if bot not in zones:
                zones[bot] = world.zone(bot)
            if rest[0] not in zones[bot]:
                raise Wrong(f"{rest[0]} is not in the zone of amoebot {bot} at place {place}")
            continue
        verdict = document.program.verdict(world, bot)
        if verdict != (kind, *rest):
            raise Wrong(f"amoebot {bot} is not {kind} at place {place}, but {verdict[:3]}")


def judge(text, report):
    """Raises Wrong where this is not a good report of the document. Else it counts marks and movements."""
    document = Document(text)
    world, program = document.world, document.program
    entries, final, turns = sections_of(report, ["journal", "final", "turns"])
    marks = read_marks(document, turns)
    check_order(document, marks)
    asked = questions_of(document, marks, len(entries))
    is_guarded = program.guard and world.is_connected()
    counts = {}
    for place in range(len(entries) + 1):
        check_place(document, world, asked[place], place)
        if place == len(entries):
            break
        words = entries[place].split(" ", 5)
        if words[:2] != ["entry", str(place)]:
            raise Wrong(f"entry {place}: {entries[place]}")
        caller, turn, bot = map(int, words[2:5])
        if document.bot_of(caller, turn) != bot or marks[caller, turn] != ["done", str(place)]:
            raise Wrong(f"entry {place} is not its turn's")
        verdict = program.verdict(world, bot)
        if verdict[0] != "change":
            raise Wrong(f"at entry {place} amoebot {bot} is {verdict}")
        counts[verdict[2][0]] = counts.get(verdict[2][0], 0) + 1
        wanted = make_entry(document, world, verdict)
        if wanted != words[5]:
            raise Wrong(f"entry {place} is {words[5]!r} and not {wanted!r}")
        if is_guarded and verdict[2][0] != "none" and not world.is_connected():
            raise Wrong(f"behind entry {place} the shape is not connected")
    for mark in marks.values():
        counts[mark[0]] = counts.get(mark[0], 0) + 1
    if counts.get("done", 0) != len(entries):
        raise Wrong("a turn is done that has no entry")
    if final != world.lines():
        raise Wrong("the final shape is not the last world")
    return counts
