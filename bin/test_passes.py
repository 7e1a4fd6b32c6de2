"""Tests of bin/passes, and of reading reports, on stored texts."""
import tempfile
import unittest
from pathlib import Path

from program import Refused, last_passes, read_report, sizes
from trying import EXAMPLES, call

# Stands in for the program: with yx the inverter is higher and narrower, and with yxy there is no layout.
PROGRAM = f"""#!/bin/sh
cd {EXAMPLES}
case $6 in
xy) cat inverter.cif; cat inverter.report >&2 ;;
yx) cat inverter.cif; sed 's/size 38/size 30/;s/size 56/size 60/' inverter.report >&2 ;;
yxy) echo 'pass 1 y unsatisfiable length 4' >&2; exit 11 ;;
*) cat library.cif; cat library.report >&2 ;;
esac
"""
TWO = """passes  inv      all grids  area
xy      38 x 56  38 x 56    2128
yx      30 x 60  30 x 60    1800  *
yxy     pass 1 y unsatisfiable length 4
"""


class Passes(unittest.TestCase):
    def setUp(self):
        room = tempfile.TemporaryDirectory()
        self.addCleanup(room.cleanup)
        self.program = Path(room.name) / "program"
        self.program.write_text(PROGRAM)
        self.program.chmod(0o755)

    def passes(self, lists, program=None):
        return call("passes", "d", "--tech", "t", "--lists", lists, "--program", program or self.program)

    def test_side_by_side(self):
        self.assertEqual(self.passes("xy,yx,yxy"), (0, TWO, ""))

    def test_grids(self):
        wanted = "passes  switch   inv      all grids  area\nxyx     56 x 58  38 x 58  288 x 116  33408  *\n"
        self.assertEqual(self.passes("xyx"), (0, wanted, ""))

    def test_faults(self):
        self.assertEqual(self.passes("yxy"), (11, "", "passes: pass 1 y unsatisfiable length 4\n"))
        self.assertEqual(self.passes("xy", "/none"), (1, "", "passes: /none: there is no such program\n"))


class Reports(unittest.TestCase):
    def test_report(self):
        passes = read_report((EXAMPLES / "library.report").read_text())
        numbers = [(it.axis, it.edges, it.backward, it.rounds) for it in passes]
        self.assertEqual(numbers, [("x", 241, 15, 3), ("y", 300, 27, 2)])
        self.assertEqual(sizes(passes), {"switch": (56, 58), "inv": (38, 58)})
        for one in last_passes(passes).values():
            for cell in one.cells:
                self.assertEqual(sum(it.length for it in cell.path), cell.size)

    def test_cycle_and_faults(self):
        head = "pass 1 x edges 1 backward 0 rounds 1\n"
        cycle = "pass 2 y unsatisfiable length 2\nt:a -> t:a 2 space\n"
        passes = read_report(f"{head}cell t size 6 kept 0\n0 -> t| 6 size\n{cycle}")
        self.assertEqual((passes[1].excess, passes[1].cycle[0].high), (2, "t:a"))
        for text in ("cell t size 6 kept 0\n", f"{head}0 -> t| 6 size\n", "sticks: usage\n"):
            with self.assertRaises(Refused):
                read_report(text)


