"""Texts that are read and written: those of the examples, and drawn ones."""

import random
import re
import unittest
from dataclasses import replace

from common import EXAMPLES, LIGHT, example, wrote
from pogyawin import (Body, Bot, Chirality, Document, Entry, Fate, Lists, Mark, Program, Refused, Shape, Spot, Unread,
                      read, run)
from pogyawin.tokens import tokens_of

DOCUMENTS = [file for file in sorted(EXAMPLES.rglob("*.amoebot"))
             if file.with_name(f"{file.name}.args").read_text().split()[0] not in ("show", "sample")]


class Examples(unittest.TestCase):
    """Each document of examples/ is read, and what is written of it means the same."""

    def test_each_token_is_kept(self):
        for file in DOCUMENTS:
            with self.subTest(file.name):
                text = file.read_text()
                self.assertEqual(list(tokens_of(str(read(text)))), list(tokens_of(text)))

    def test_calls_answer_the_same(self):
        for file in DOCUMENTS:
            with self.subTest(file.name):
                words = " ".join(file.with_name(f"{file.name}.args").read_text().split())
                status = file.with_name(f"{file.name}.status")
                wanted = int(status.read_text()) if status.exists() else 0
                answer = file.with_name(f"{file.name}.stdout").read_text()
                found = wrote(words, str(read(file.read_text())))
                if wanted == 3:  # the line is another one: a comment is left out
                    found, answer = (found[0], found[1].split()[2]), answer.split()[2]
                self.assertEqual(found, (wanted, answer))

    def test_what_runs_wrote_is_written_again(self):
        runs = 0
        for file in DOCUMENTS:
            answer = file.with_name(f"{file.name}.stdout").read_text()
            if answer.startswith("journal\n"):
                with self.subTest(file.name):
                    runs += 1
                    ended = Document.parse(file.read_text()).with_sections(answer)
                    self.assertTrue(str(ended).endswith("\n" + answer))
                    for again in (run(ended), read(str(ended))) if len(ended.lists.bots) == 1 else ():
                        self.assertEqual(again, ended)
        self.assertGreater(runs, 20)

    def test_canonical_documents_keep_their_bytes(self):
        for name in ("light_run", "light_journal", "train", "walls_run", "renew", "old_values_tampered", "elect_ring"):
            with self.subTest(name):
                text = example(name)
                text = text[re.search("^amoebot ", text, re.M).start():]
                self.assertEqual(str(read(text)), text)

    def test_parts_of_larger_examples(self):
        for file in sorted(EXAMPLES.rglob("*.large")):
            with self.subTest(file.name):
                text = file.with_suffix("").read_text()
                whole = text[:text.index("\nshape\n") + 1] + file.read_text()
                document = read(whole)
                self.assertEqual(len(document.lists.bots), whole.count("\nlist "))
                self.assertEqual(len(document.shape.bots), whole.count("\nbot "))


class Values(unittest.TestCase):
    """What a text says is what the value has."""

    def test_an_entry(self):
        text = "entry 7 1 2 3 0 pull tail 4 spot -2 3 empty to 5 body 5 1 -1 1 -1 2 - 4 to 2 -1 1 -1 2 - 9"
        read_journal = Document(Program("program end")).with_sections(f"journal\n{text}\nend\n").journal
        bot = Bot((1, -1), (1, -1), 2, Chirality.MINUS, (4,))
        cells = (Spot((-2, 3), 5, -1), Body(5, replace(bot, head=(2, -1), values=(9,)), bot))
        self.assertEqual(read_journal, (Entry(7, 1, 2, 3, 0, "pull tail 4", cells),))
        self.assertEqual(str(read_journal[0]), text)

    def test_marks(self):
        texts = {"turn 0 1 done 4": Mark(0, 1, Fate.DONE, 4), "turn 2 0 failed no_port 3": Mark(2, 0, Fate.FAILED, 3, "no_port"),
                 "turn 1 5 busy spot -4 3 by 0 0 1 place 2": Mark(1, 5, Fate.BUSY, 2, "spot -4 3 by 0 0 1")}
        marks = Document(Program("program end")).with_sections("turns " + " ".join(texts) + " end").turns
        self.assertEqual(marks, tuple(texts.values()))
        self.assertEqual([str(mark) for mark in marks], list(texts))

    def test_comments_blanks_and_names(self):
        text = "# program var end_ 3 end\namoebot\t02 # program\nprogram var end_ 3\r\nvar to 4 end#shape\n"
        document = read(text + "shape area - 1 0 8 8\nbot 1 1 1 1 0+2 04 end")
        self.assertEqual((document.version, document.program.variables), (2, {"end_": 3, "to": 4}))
        self.assertEqual(document.shape.bots[0].values, (2, 4))
        self.assertEqual(document.shape.area.x, -1)

    def test_bytes_that_are_no_text(self):
        text = b"amoebot 1 program # \xff\xc3\n end"
        self.assertEqual(str(read(text)).encode("utf-8", "surrogateescape"), text.replace(b" program", b"\nprogram") + b"\n")

    def test_what_is_no_document(self):
        for text in ("", "amoebot 1", "program end", "amoebot 1 program end shape end", "amoebot 1 program end journal entry end"):
            with self.subTest(text):
                self.assertRaises(Refused, read, text)
        self.assertRaises(Unread, Document.parse, "shape area 0 0 1 1 end")
        self.assertRaises(Unread, Shape.parse, "shape area 0 0 1 end")

    def test_lists(self):
        shape = Shape.of([(3, 0), (1, 0), (0, 5), (2, 0)])
        self.assertEqual(Lists.by_place(shape, 2, 10), Lists(10, ((2, 1), (3, 0))))
        self.assertEqual(Lists.by_shares(shape, [1, 3]).bots, ((2,), (1, 3, 0)))
        self.assertEqual(Lists.of_all(shape), Lists(64, ((0, 1, 2, 3),)))
        self.assertEqual(Lists.by_place(shape, 16).bots, ((2,), (1,), (3,), (0,)))
        drawn = Lists.by_draw(Shape.of([(x, 0) for x in range(64)]), 3, seed=1)
        self.assertEqual(sorted(sum(drawn.bots, ())), list(range(64)))
        self.assertNotEqual(list(sum(drawn.bots, ())), list(range(64)))
        self.assertEqual(Lists.by_place(Shape.of([(x, y) for x in range(64) for y in range(64)]), 16).turns, 4096)
        self.assertEqual([Lists(9, ((4, 5, 6), (7,))).bot_of(*turn) for turn in ((0, 4), (1, 3))], [5, 7])


PROGRAMS = [Document.parse(file.read_text()).program for file in DOCUMENTS]


def drawn_document(draw: random.Random) -> str:
    """A document, mostly a good one, laid out by chance. Half of them are damaged at a token."""
    program, version = draw.choice(PROGRAMS), draw.choice([1, 2, 2, 3, 3])
    nodes = draw.sample([(x, y) for x in range(-3, 4) for y in range(5)], draw.randrange(1, 9))
    walls = nodes[:version - 1] if draw.randrange(2) else []
    values = list(program.variables.values())
    shape = Shape.of(nodes[len(walls):] or [(9, 9)], values=lambda bot: [draw.randrange(value + 1) for value in values],
                     walls=walls, margin=draw.randrange(4)).turned(draw.randrange(99))
    callers = draw.choice([1, 1, 2, 3])
    document = Document(program, shape, Lists.by_draw(shape, callers, 5, draw.randrange(30)), version=version)
    text = str(document)
    if draw.randrange(3):
        steps = [f"{draw.randrange(len(document.lists.bots))} times {draw.randrange(1, 60)}" for _ in range(draw.randrange(5))]
        ended = wrote("interleave", f"{text} schedule {' '.join(steps)} end")
        text += f"schedule\n{' '.join(steps)} end\n" + ended[1] * (ended[0] == 0)
    words = re.findall(r"#[^\n]*\n|[^ \n]+|\n", text)
    if draw.randrange(2):
        at = draw.randrange(len(words))
        words[at:at + 1] = draw.choice([[], [words[at]] * 2, [draw.choice(words)], ["0"], ["end"], ["$"], ["999"]])
    blanks = [" ", " ", " ", "\t", "\n", "\r\n", " # end\n"]
    return "".join(word + draw.choice(blanks) for word in words)


class Drawn(unittest.TestCase):
    """500 documents: the program says of each what the package reads."""

    def test_reading_agrees_with_the_program(self):
        accepted = 0
        for seed in range(500):
            text = drawn_document(random.Random(seed))
            with self.subTest(seed=seed):
                has_journal = re.search(r"\bend\s+journal\b", re.sub(r"#[^\n]*", "", text))
                status, answer = wrote("measure" if has_journal else "check", text)
                if status == 3:
                    with self.assertRaises(Refused) as refused:
                        read(text)
                    self.assertEqual(f"refused {refused.exception.line} {refused.exception.kind}\n", answer)
                    continue
                accepted += 1
                document = read(text)
                self.assertEqual(status, 0)
                self.assertEqual(wrote("measure" if has_journal else "check", str(document)), (status, answer))
                if has_journal:
                    self.assertEqual(answer.splitlines()[0], f"bots {len(document.final.bots)}")
                    self.assertEqual(wrote("replay", text), wrote("replay", str(document)))
                for name, maximum in document.program.variables.items():
                    self.assertIn(f"\nvar {name} {maximum}\n", wrote("check", str(document.without_report()))[1])
                ended = wrote("interleave", str(replace(document.without_report(), schedule=document.schedule)))
                if ended[0] == 0:
                    self.assertTrue(str(document.without_report().with_sections(ended[1])).endswith(ended[1]))
        self.assertGreater(accepted, 200)
        self.assertLess(accepted, 450)


if __name__ == "__main__":
    unittest.main()
