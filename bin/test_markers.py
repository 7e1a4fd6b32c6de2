"""Tests of bin/markers, and of reading lists of breaks, on stored texts."""
import tempfile
import unittest
import xml.etree.ElementTree as ElementTree
from pathlib import Path

from listed import read_breaks
from program import Refused
from trying import call

LIST = """breaks 5
rule 1 width.metal least 9.000 box 7 NM 86.000 -4.500 94.000 4.500
rule 2 cut.size least 6.000 box 0 NC -3.000 -4.500 3.000 4.500
rule 3 crossing box 1 ND -6.000 -9.000 6.000 21.000 box 2 NP -12.000 -3.000 -0.005 3.000
rule 5 cut.enclosure least 3.000 box 0 NC -3.000 -4.500 3.000 4.500
rule 9 spacing.cut least 6.000 box 0 NC -3.000 -4.500 3.000 4.500 box 3 NC 8.000 -3.000 14.000 3.000
"""
KEYS = ["width.metal", "cut.size", "crossing", "cut.enclosure", "spacing.cut"]


class Markers(unittest.TestCase):
    def setUp(self):
        room = tempfile.TemporaryDirectory()
        self.addCleanup(room.cleanup)
        self.room = Path(room.name)

    def file(self, text, name="list"):
        (self.room / name).write_text(text)
        return self.room / name

    def database(self, text, *words):
        status, told, wrong = call("markers", self.file(text), *words)
        self.assertEqual((status, wrong), (0, ""))
        return ElementTree.fromstring(told.encode())

    def test_an_item_for_each_line(self):
        found = self.database(LIST)
        self.assertEqual([it.text for it in found.findall("categories/category/name")], KEYS)
        items = found.findall("items/item")
        self.assertEqual([it.find("category").text for it in items], [f"'{key}'" for key in KEYS])
        values = [[it.text for it in item.findall("values/value")] for item in items]
        self.assertEqual(values[2][:2], ["box: (-6,-9;6,21)", "box: (-12,-3;-0.005,3)"])
        self.assertEqual(values[0][0], "box: (86,-4.5;94,4.5)")
        self.assertEqual([it[-1] for it in values], [f"text: '{line}'" for line in LIST.splitlines()[1:]])
        self.assertEqual(found.find("description").text, "5 breaks of rules in list")
        told = [it.text for it in found.findall("categories/category/description")]
        self.assertEqual(told[0], "rule 1: metal is at least 9.000 microns wide and high")
        self.assertEqual(told[4], "rule 9: two cuts lie at least 6.000 microns apart")

    def test_cells_and_files(self):
        box = "L NM;B 200 200 0 0;"
        symbol = f"DS 3 75 1;9 a;{box}DF;"
        for text, name, first in (
            (f"{box}E", "CIF_TOP", "(86,-4.5;94,4.5)"),
            (f"{symbol}C 3 T 100 0;C 3;E", "CIF_TOP", "(86,-4.5;94,4.5)"),
            (f"{symbol}C 3;E", "a", "(86,-4.5;94,4.5)"),
            (f"{symbol}C 3 M X R 0 1 T 100 50;E", "a", "(-4,-93;5,-85)"),
            (f"DS 7;{box}DF;C 7 T 100 0;E", "C7", "(85,-4.5;93,4.5)"),
            ("E", "CIF_TOP", "(86,-4.5;94,4.5)"),
        ):
            found = self.database(LIST, "--cif", self.file(text, "masks.cif"))
            for path in ("top-cell", "cells/cell/name", "items/item/cell"):
                self.assertEqual(found.find(path).text, name, text)
            self.assertEqual(found.find("items/item/values/value").text, f"box: {first}", text)
        self.assertEqual(self.database(LIST).find("top-cell").text, "CIF_TOP")
        out = self.room / "out.lyrdb"
        self.assertEqual(call("markers", self.file(LIST), out), (0, "", ""))
        self.assertEqual(out.read_text(), call("markers", self.file(LIST))[1])
        none = self.database("breaks 0\n")
        self.assertEqual(len(none.findall("items/item")), 0)
        more = self.database(LIST + "more\n")
        self.assertEqual(more.find("description").text, "5 breaks of rules in list, and there are more")

    def test_faults(self):
        for text, told in (
            ("", "its first line is ''"),
            ("sticks: usage\n", "its first line is 'sticks: usage'"),
            ("breaks 1\nsomething\n", "it has the line 'something'"),
            ("breaks 6\n" + LIST[9:], "it has 5 lines below 'breaks 6'"),
            (LIST.replace("breaks 5", "breaks 4"), "it has 5 lines below 'breaks 4'"),
        ):
            self.assertEqual(call("markers", self.file(text)), (1, "", f"markers: no list of breaks: {told}\n"))
        self.assertEqual(call("markers", self.room / "none")[0], 1)
        status, told, wrong = call("markers", "--help")
        self.assertEqual((status, told[:15], wrong), (0, "usage: markers ", ""))


class Lists(unittest.TestCase):
    def test_lines(self):
        breaks, is_more = read_breaks(LIST + "more\n")
        self.assertEqual(([it.key for it in breaks], is_more), (KEYS, True))
        self.assertEqual((breaks[2].rule, breaks[2].least), (3, ""))
        self.assertEqual(breaks[4].boxes[1], (3, "NC", ("8.000", "-3.000", "14.000", "3.000")))
        self.assertEqual(read_breaks("breaks 0\n"), ([], False))
        with self.assertRaises(Refused):
            read_breaks("breaks 0\nmore\nmore\n")
