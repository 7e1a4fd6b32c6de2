"""Tests of bin/explain: what it says of the stored answers of the program to the mistakes of bench/, which it needs no
program for.
"""
import json
import os
import re
import sys
import tempfile
import unittest
from pathlib import Path

from design import Design
from drawn import Drawn, Technology
from explain_cif import Masks
from explain_words import COMMANDS, Call, form_of, known_repair
from trying import EXAMPLES, ROOT, call, run

sys.path.insert(0, str(ROOT / "bench"))
from mistakes import ANSWERS, judged, put
from mistake_texts import MISTAKES

NMOS = (EXAMPLES / "nmos.toml").read_text()


class Explain(unittest.TestCase):
    def setUp(self):
        room = tempfile.TemporaryDirectory()
        self.addCleanup(room.cleanup)
        self.room = Path(room.name)
        self.addCleanup(os.chdir, os.getcwd())
        os.chdir(self.room)

    def answered(self, status, output, told):
        """A program that answers so to whatever words."""
        (self.room / "told").write_text(told)
        (self.room / "output").write_text(output)
        program = self.room / "program"
        program.write_text(f"#!/bin/sh\ncat '{self.room}/output'; cat '{self.room}/told' >&2; exit {status}\n")
        program.chmod(0o755)
        return "--program", program

    def test_mistakes(self):
        answers = json.loads(ANSWERS.read_text())
        self.assertEqual(sorted(answers), sorted(it[0] for it in MISTAKES))
        for title, words, files, wanted in MISTAKES:
            put(self.room, files)
            status, output, told = answers[title]
            came, wrote, said = call("explain", *self.answered(status, output, told), *words.split())
            self.assertEqual((came, wrote, said[: len(told)]), (status, output, told), title)
            self.assertEqual(judged(wanted, said[len(told) :]), "", f"{title}\n{said}")

    def test_each_status_is_among_them(self):
        found = {status for status, _, _ in json.loads(ANSWERS.read_text()).values()}
        self.assertEqual(found, {0, 2, 3, 5, 6, 7, 8, 10, 11, 12, 13, 14, 16})

    def test_why_a_cell_is_so_large(self):
        report = (EXAMPLES / "inverter.report").read_text()
        program = self.answered(0, "masks\n", report)
        words = ["compact", EXAMPLES / "inverter.sticks", "--tech", EXAMPLES / "nmos.toml"]
        status, output, told = call("explain", *program, *words)
        self.assertEqual((status, output), (0, "masks\n"))
        self.assertTrue(told.startswith(report))
        status, quiet, wrong = call("explain", "--quiet", *program, *words)
        self.assertEqual((status, report + quiet, wrong), (0, told, ""))
        for line in (
            "inv is 38 u wide (pass 1), because",
            "  inv:q is at 28 u: 16 u past inv:d (space)",
            "      poly of d and poly of q: spacing.poly, 4 u between their boxes",
            f"      {EXAMPLES}/inverter.sticks:10: contact q poly 1 1",
        ):
            self.assertIn(f"explain: {line}\n", quiet)

    def test_every_step_of_the_stored_reports_has_a_reason(self):
        for report in sorted(EXAMPLES.glob("*.report")):
            tech = EXAMPLES / ("nmos2.toml" if report.stem == "buried" else "nmos.toml")
            words = ["compact", report.with_suffix(".sticks"), "--tech", tech]
            told = call("explain", "--quiet", *self.answered(0, "", report.read_text()), *words)[1]
            self.assertNotIn("no more can be told", told)
            for step in re.findall(r"\((?:space|margin)\)\n.*", told):
                self.assertRegex(step, r"keeps off|between their boxes|one of these", report.stem)

    def test_words_and_what_cannot_be_told(self):
        self.assertIn("explain [--quiet] [--program PATH] WORDS", call("explain", "--help")[1])
        self.assertEqual(call("explain", "--program", "nothing", "fmt"),
                         (1, "", "explain: nothing: there is no such program\n"))
        told = call("explain", *self.answered(7, "", "sticks: line 3: NewKind\n"), "fmt", EXAMPLES / "row.sticks")[2]
        self.assertIn("explain: no more can be told", told)
        self.assertEqual(call("explain", *self.answered(70, "", "sticks: no\n"), "fmt", "x"), (70, "", "sticks: no\n"))

    def test_forms_are_those_of_the_help(self):
        told = run(ROOT / "bin/sticks", "--help")[1]
        for command in COMMANDS:
            self.assertIn(f"  sticks {form_of(command).replace('--script FILE', '--script SCRIPT')}\n", told)
        for words in ("compact d --tech t", "check c --tech=t --split 64", "breaks c --tech t --most 065", "nets d --tech t", "fmt -- -d", "bench 64",
                      "jog d --script s --tech t --passes yx", "edit - --script s --tech t"):
            self.assertEqual(Call(words.split()).faults, [], words)

    def test_repairs_are_read_out_of_the_manual(self):
        for word in ("BadByte", "UsedPorts", "PortMismatch", "PadTooSmall", "BadNumber", "9 `too large: ..",
                     "11 a cycle", "14 `not proper", "1 `out of memory", "4 `cannot write output"):
            self.assertTrue(known_repair(word), word)


class Inlined(unittest.TestCase):
    TEXT = """sticks 1
cell low
joint a metal 0 0
joint b metal 2 0
wire metal a b
limit x a b >= 30
end
cell mid
use u low 0 1
contact k diff 4 1
wire metal u.b k
use v low 0 2
end
cell top
wire metal p.u.a q
end
grid
row mid
end
"""

    def test_parts_have_their_numbers_and_lines(self):
        cell = Design(self.TEXT).inlined("mid")
        self.assertEqual(list(cell.nodes), ["u.a", "u.b", "k", "v.a", "v.b"])
        self.assertEqual([(it.name, it.line.number, [use.number for use in it.uses], it.ends) for it in cell.wires],
                         [("#0", 5, [9], ("u.a", "u.b")), ("#1", 11, [], ("u.b", "k")),
                          ("#2", 5, [12], ("v.a", "v.b"))])
        self.assertEqual([(it.column, it.row) for it in cell.nodes.values()], [(0, 1), (2, 1), (4, 1), (0, 2), (2, 2)])
        self.assertEqual([it.ends for it in cell.limits], [("u.a", "u.b"), ("v.a", "v.b")])

    def test_boxes_and_nets(self):
        drawn = Drawn(Design((EXAMPLES / "inverter.sticks").read_text()).inlined("inv"), Technology(NMOS))
        self.assertEqual(len(drawn.items), 48)
        self.assertEqual(drawn.net("p"), drawn.net("o"))
        self.assertEqual(drawn.net("l", "gate"), drawn.net("d", "high"))
        self.assertNotEqual(drawn.net("d", "high"), drawn.net("d", "low"))
        self.assertFalse([it for a in drawn.inlined.nodes for b in drawn.inlined.nodes for it in drawn.clashes(a, b)])

    def test_boxes_of_masks_by_their_numbers(self):
        for name in ("row", "library"):
            masks = Masks((EXAMPLES / f"{name}.cif").read_text())
            boxes = list(masks.boxes())
            self.assertEqual(len(boxes), masks.symbols[-1].count)
            for number in (0, len(boxes) // 2, len(boxes) - 1):
                self.assertEqual(masks.box(number)[:2], boxes[number])
            self.assertIsNone(masks.box(len(boxes)))
