#!/usr/bin/env python3
"""Times `compact` on designs near the limits, and `fmt` on a long text: compact.py [PROGRAM [DIVISOR [NAME..]]]

Each line has user seconds, the least of three runs, the peak of memory (the 15 MB of the script that starts it are the
least that is seen), how many times as long the whole size takes as an eighth of it, and what the report says of the
first pass. An eighth has an eighth of the items, or of the inequalities where these grow with the square of the items
(EIGHTHS of shapes.py). A DIVISOR makes each size smaller; with NAMEs only these are timed. `inverter` is the example.
shapes.py makes the other designs, each of one cell, and lists some of them in order, reversed and shuffled:
  uses    rows of joints, doubled by uses inside uses
  many    sixteen rows of joints: every two of one row face each other, and every two of one column
  ladder  columns of 20 joints, each tied by wires
  nets    two rows of joints, each tied by wires to one net, so that no item of a row shadows another of it: half of all
          pairs are kept
  field   joints of all layers and contacts, at random, on a square
  beside, above  inverters without ports by uses, side by side and on top of one another
  row     joints side by side, so that every two of them face each other, and all but neighbours are shadowed
  limits  the same, with a limit from each joint to the next
  raised  the same, where the last joint is so far off that the others are raised one after the other, from right to
          left
  edges   two nets as in `nets`, and limits: with 1,024 joints as many inequalities as a pass may have
  heap    joints of one net on one spot, each wired to one joint
  weave   3,900 wires of metal across and as many of poly up, which cross
  buried  10,000 wires of poly and as many of diffusion at one buried contact
  poly, diffusion, contacts, transistors  sixteen rows of these, as in `many`
  columns 2,000 joints in a row, each tied to the next by 21 wires
  between, poly_between  8,000 upright wires, a joint that covers none of them as a whole, and 8,000 of another net
  facing, stairs  upright wires of one net before as many joints of other nets, and before a staircase of joints
  names   13,000 wires between two joints that lie sixteen uses deep
  text    `fmt` of a design of up to 1,048,576 bytes
grids.py times grids.
"""
import os, subprocess, sys, tempfile
from shapes import EXAMPLES, SHAPES, eighth_of, text_of

HERE = os.path.dirname(os.path.abspath(__file__))
TECH = os.path.join(EXAMPLES, "nmos.toml")
TECH2 = os.path.join(EXAMPLES, "nmos2.toml")
PROGRAM = (os.path.abspath(sys.argv[1]) if len(sys.argv) > 1
           else os.path.join(HERE, "..", "crates", "sticks", "out", "sticks"))


def names(wires):
    cells = ["cell u0\njoint p metal 0 0\njoint q metal 1 0\nend\n"]
    for k in range(1, 15):
        cells.append("cell u%d\nuse a u%d 0 0\nend\n" % (k, k - 1))
    path = "a." * 15
    cells.append("cell t\nuse a u14 0 0\n" + ("wire metal %sp %sq\n" % (path, path)) * wires + "end\n")
    return "sticks 1\n" + "".join(cells) + "grid\nrow t\nend\n"


def text(bytes_wanted):
    head, tail = "sticks 1\ncell t\n", "end\ngrid\nrow t\nend\n"
    line = "joint abcdefgh metal 1000 2000\n"
    count = (bytes_wanted - len(head) - len(tail)) // len(line)
    return head + line * count + tail


def timed(words):
    """User seconds and those of the system, the peak of memory in MB, the status and the first line of the report."""
    with tempfile.TemporaryFile("w+") as report:
        child = subprocess.Popen([PROGRAM] + words, stdout=subprocess.DEVNULL, stderr=report)
        _, status, used = os.wait4(child.pid, 0)
        child.returncode = os.waitstatus_to_exitcode(status)
        report.seek(0)
        return used.ru_utime, used.ru_stime, used.ru_maxrss / 1024, child.returncode, report.readline().rstrip("\n")


def run(name, size, words, tries=1, before=None):
    """Prints a line, and gives the seconds, with those of the system, as these two are told apart by ticks; `before`
    are those of an eighth of the size.
    """
    user, system, peak, status, told = min((timed(words) for _ in range(tries)), key=lambda one: one[0] + one[1])
    growth = "x %.1f" % ((user + system) / before) if before else ""
    print("%-17s %17s  %8.3f s  %5.0f MB  %7s  status %d  %s" % (name, size, user, peak, growth, status, told),
          flush=True)
    return user + system


def run_shape(path, name, order, divisor):
    make, whole, what, _ = SHAPES[name]
    tech = TECH2 if name == "buried" else TECH
    before = None
    for size in (eighth_of(name, whole // divisor), whole // divisor):
        with open(path, "w") as f:
            f.write(text_of(make(size), order))
        before = run(name + " " + order, "%d %s" % (size, what), ["compact", path, "--tech", tech], 3, before)


def main():
    divisor = int(sys.argv[2]) if len(sys.argv) > 2 else 1
    wanted = sys.argv[3:]
    with tempfile.TemporaryDirectory() as folder:
        path = os.path.join(folder, "d")
        for name, (_, _, _, orders) in SHAPES.items():
            for order in orders:
                if not wanted or name in wanted:
                    run_shape(path, name, order, divisor)
        if wanted:
            return
        run("inverter", "", ["compact", os.path.join(EXAMPLES, "inverter.sticks"), "--tech", TECH])
        with open(path, "w") as f:
            f.write(names(13000))
        run("names", "13000", ["compact", path, "--tech", TECH])
        for k in (16, 18, 20):
            with open(path, "w") as f:
                f.write(text(2 ** k))
            run("text", "2^%d" % k, ["fmt", path], 3)


if __name__ == "__main__":
    if sys.argv[1:2] in (["--help"], ["-h"]):
        print(__doc__.strip())
        sys.exit()
    main()
