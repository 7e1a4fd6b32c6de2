"""Tests of bin/picture, and of what it reads masks and designs with."""
import re
import sys
import tempfile
import unittest
from pathlib import Path

from design import Design
from masks import read_masks
from parts import places_of
from program import Refused
from trying import EXAMPLES, ROOT, call, run

BOX = "DS 1;L NM;B 300 300 0 0;DF;C 1 T 0 0;"
JOINTS = "DS 1 75 1;9 t;L NM;B 12 12 18 18;B 12 12 42 18;B 12 12 66 18;DF;C 1 T 0 0;E"
DESIGN = """sticks 1
cell t # three joints
joint a metal 0 0
joint b metal 1 0
joint c metal 2 0
end
grid
row t
end
"""
USED = """sticks 1
cell one
joint a metal 0 0
end
cell t
use u one 0 0
use v one 1 0
joint c metal 2 0
end
"""
CYCLE = """pass 1 x unsatisfiable length 4
t:a -> t:b 12 space
t:b -> t:c 12 space
t:c -> t:a -20 limit
"""


def stored(name):
    """The words with which the stored picture of an example was made."""
    files = [EXAMPLES / f"{name}.{kind}" for kind in ("cif", "sticks", "report")]
    return [files[0], "--design", files[1], "--report", files[2]]


class Picture(unittest.TestCase):
    def setUp(self):
        room = tempfile.TemporaryDirectory()
        self.addCleanup(room.cleanup)
        self.room = Path(room.name)

    def file(self, name, text):
        (self.room / name).write_text(text)
        return self.room / name

    def drawn(self, *words):
        status, told, wrong = call("picture", *words)
        self.assertEqual((status, wrong), (0, ""))
        return told

    def test_stored_pictures(self):
        masks = sorted(EXAMPLES.glob("*.cif"))
        self.assertEqual([it.stem for it in masks], sorted(it.stem for it in EXAMPLES.glob("*.svg")))
        for cif in masks:
            self.assertEqual(self.drawn(*stored(cif.stem)), cif.with_suffix(".svg").read_text(), cif.name)
        wanted = masks[0].with_suffix(".svg").read_bytes()
        words = stored(masks[0].stem)
        words.insert(1, self.room / "out.svg")
        self.assertEqual(run(sys.executable, ROOT / "bin/picture", *words), (0, "", ""))
        self.assertEqual((self.room / "out.svg").read_bytes(), wanted)

    def test_paths_and_names(self):
        words = [EXAMPLES / "inverter.cif", "--report", EXAMPLES / "inverter.report"]
        bare = self.drawn(*words)
        self.assertIn("frame of a cell", bare)
        self.assertNotIn("why inv is", bare)
        whole = self.drawn(*words, "--design", EXAMPLES / "inverter.sticks")
        for told in ("why inv is 38 u wide", "why inv is 56 u high", ">16</text>", ">vl</text>", ">q</text>"):
            self.assertIn(told, whole)
        # The way from the left border over d and q to the right one: 12, 16 and 10 u of 10 pixels each.
        path = re.search(r'd="([^"]*)" fill="none" stroke="#d5008f"', whole)[1]
        xs = [float(it) for it in re.findall(r"[ML]([0-9.]+) ", path)]
        self.assertEqual([b - a for a, b in zip(xs, xs[1:])], [120, 160, 100])
        # Masks of two grids: the paths of one cell alone, and no names.
        large = self.drawn(*stored("library"), "--cell", "switch")
        self.assertIn("why switch is 56 u wide", large)
        self.assertNotIn("why inv is", large)
        self.assertNotIn(">vl</text>", large)
        # Without a report the frames are those of cells whose ports tell both sizes.
        framed = self.drawn(EXAMPLES / "library.cif", "--design", EXAMPLES / "library.sticks")
        self.assertEqual(re.search(r'd="([^"]*)" fill="none" stroke="#555"', framed)[1].count("Z"), 5)
        self.assertNotIn("frame", self.drawn(EXAMPLES / "inverter.cif", "--design", EXAMPLES / "inverter.sticks"))

    def test_a_report_after_what_a_build_tells(self):
        cif, *words = stored("inverter")[:3]
        passes = (EXAMPLES / "inverter.report").read_text()
        for before in ("try: nothing is proved of this program\n", "sticks: building\nsticks: it is built\n"):
            report = self.file("report", before + passes)
            self.assertEqual(self.drawn(cif, *words, "--report", report), (EXAMPLES / "inverter.svg").read_text())
        for text in ("sticks: line 1: BadByte\n", passes + "try: behind it\n"):
            status, told, wrong = call("picture", cif, "--report", self.file("report", text))
            self.assertEqual((status, told), (1, ""))
            self.assertIn("no report of passes: it has the line", wrong)

    def test_a_cycle(self):
        cif, design, report = self.file("cif", JOINTS), self.file("design", DESIGN), self.file("report", CYCLE)
        told = self.drawn(cif, "--design", design, "--report", report)
        self.assertIn("a cycle of pass 1 on x, 4 u too long", told)
        self.assertIn(">-20</text>", told)

    def test_marks(self):
        cif = self.file("cif", JOINTS)
        self.assertEqual(self.drawn(cif, "--mark", "0,2").count('fill-opacity="0.25"'), 2)
        lines = self.file("lines", "sticks: rule 6: boxes 0 1\nrule 6: boxes 1 2\nsomething else\n")
        self.assertEqual(self.drawn(cif, "--mark", lines).count('fill-opacity="0.25"'), 3)
        corners = "NM 9.000 9.000 18.000 18.000"
        listed = f"breaks 2\nrule 6 spacing.metal least 9.000 box 0 {corners} box 1 {corners}\n"
        listed += f"rule 6 spacing.metal least 9.000 box 1 {corners} box 2 {corners}\nmore\n"
        told = self.drawn(cif, "--mark", self.file("listed", listed))
        self.assertEqual((told.count('fill-opacity="0.25"'), told.count(">marked boxes<")), (3, 1))
        self.assertNotIn("marked", self.drawn(cif, "--mark", self.file("listed", "breaks 0\n")))
        many = self.file("many", f"L NM;{''.join(f'B 9 9 {10 * k} 0;' for k in range(300))}E")
        told = self.drawn(many, "--mark", ",".join(map(str, range(300))))
        self.assertEqual((told.count('fill-opacity="0.25"'), told.count(">299<")), (300, 0))
        for mark, told in ((cif, "it has no line that ends in `boxes A B`, and is no list of breaks"),
                           ("1,7", "it has no box 7")):
            self.assertEqual(call("picture", cif, "--mark", mark), (1, "", f"picture: {cif}: {told}\n"))

    def test_faults(self):
        for text, told in (
            (f"{BOX}", "its last word is not E"),
            (f"{BOX}R 10 0 0;E", "it has the command 'R 10 0 0'"),
            (f"{BOX}C 2 T 0 0;E", "symbol 2 may not be called there"),
            (f"{BOX}DS 2;C 2;DF;E", "symbol 2 may not be called there"),
            (f"{BOX}DF;E", "DF stands outside of a symbol"),
            (f"{BOX}{BOX}E", "symbol 1 may not begin there"),
            (f"{BOX}DS 2;E", "symbol 2 has no end"),
            (f"{BOX}B 2 2 0 0;E", "a box has no layer"),
            (f"{BOX}L NM;B 2 0 0 0;E", "a box is 2 by 0"),
            (f"{BOX}C 1 R 1 1;E", "it turns towards 1 1"),
            (f"{BOX}(;E", "a comment in it has no end"),
            ("L XX;B 2 2 0 0;E", "it draws no box"),
            ("E", "it draws no box"),
        ):
            cif = self.file("cif", text)
            self.assertEqual(call("picture", cif, self.room / "out.svg"), (1, "", f"picture: {cif}: {told}\n"), text)
            self.assertFalse((self.room / "out.svg").exists())

    def test_files_and_words(self):
        for words, told in (
            ([self.room / "none"], f"{self.room}/none: No such file or directory"),
            ([EXAMPLES / "row.cif", self.room], f"{self.room}: Is a directory"),
        ):
            self.assertEqual(call("picture", *words), (1, "", f"picture: {told}\n"))
        for words in ([], ["a", "b", "c"]):
            status, told, wrong = call("picture", *words)
            self.assertEqual((status, told, wrong[:15]), (2, "", "usage: picture "))
        status, told, wrong = call("picture", "--help")
        self.assertEqual((status, told[:15], wrong), (0, "usage: picture ", ""))


class Masks(unittest.TestCase):
    def test_all_that_check_reads(self):
        # What extract finds in it, and what FORMATS.md says of its own example.
        flat = list(read_masks("DS 1 1 1; L NM; B 1200 1800 600 900; DF; C 1 R 0 1; C 1 M X T 3000 0; E").flat())
        self.assertEqual([it[1] for it in flat], [(-1800, 0, 1800, 1200), (1800, 0, 1200, 1800)])
        script = read_masks((EXAMPLES / "foreign/script.cif").read_text())
        self.assertEqual(len(list(script.flat())), 9)
        self.assertEqual(list(script.flat())[0], ("ND", (100, -48, 16, 48)))
        self.assertEqual([it for it in script.flat() if it[0] == "NI"], [("NI", (0, 0, 20, 20))])
        text = "DS 0 2 1;LNC;B2 2 1 1;DF;DS1 3 1;C0T1 0;C0 M YT0 1;LNM;B1 1 0 0;DF;(a (b;c) d)C1 R-1 0;C 0;9 x(y;End"
        deep = read_masks(text)
        self.assertEqual([it[1] for it in deep.flat()][:2], [(-7, -4, 4, 4), (-4, -3, 4, 4)])

    def test_parts_of_a_design(self):
        design = Design((EXAMPLES / "library.sticks").read_text())
        masks = read_masks((EXAMPLES / "library.cif").read_text())
        inv = places_of(design, masks.symbols[2])
        self.assertEqual((inv.nodes["d"], inv.wires[11]), ((1800, 3000), (4050, 4575)))
        self.assertEqual(inv.ports["vr"], ("right", (5700, 7050)))
        with self.assertRaisesRegex(Refused, "the masks of cell 't' are not those of the design"):
            places_of(Design("cell t\nend\n"), read_masks(JOINTS).symbols[1])
        used = places_of(Design(USED), read_masks(JOINTS).symbols[1])
        self.assertEqual(list(used.nodes), ["u.a", "v.a", "c"])
