#!/usr/bin/env python3
"""Times `compact` on grids: grids.py [PROGRAM]

Each line gives the least of three times, and what the report says of the first pass. A grid should cost hardly more
than its masters do: nothing is done for an instance but its call, and a plan takes time linear in its names and in the
ports of its cells. `one` is the example inverter by itself.
  inverter  a square of inverters; 170 x 170 have 1,011,500 mask boxes
  full      1,024 names in one row, of a cell with 1,024 joints: as many mask boxes as there may be
The others are designs of up to 1,048,576 bytes, as long as one may be:
  names     one row of an empty cell, half a million times
  square    as many rows as names in a row, of a cell with one joint
  pairs     one row of 256 cells that hand one wire on, in which each of them stands beside each, if there is room
  ports     one row of a cell whose text has half the bytes and is all ports; it has too many mask boxes, so its plan
            alone is made
  grids     as many grids of one instance as there is room for
"""
import itertools, os, sys, tempfile
from compact import HERE, TECH, run

INVERTER = os.path.join(HERE, "..", "examples", "inverter.sticks")
LONGEST = 2 ** 20
LETTERS = "abcdefghijklmnopqrstuvwxyzABCDEFGHIJKLMNOPQRSTUVWXYZ"


def grid_of(rows):
    return "grid\n" + "".join("row %s\n" % " ".join(row) for row in rows) + "end\n"


def design(cells, rows):
    return "sticks 1\n" + cells + grid_of(rows)


def inverters(side):
    with open(INVERTER) as f:
        cells = f.read().partition("sticks 1\n")[2].partition("grid\n")[0]
    return design(cells, [["inv"] * side] * side)


def full():
    joints = "".join("joint j%d metal 0 %d\n" % (i, i) for i in range(1024))
    return design("cell a\n" + joints + "end\n", [["a"] * 1024])


def names(room):
    cells = "cell a\nend\n"
    return design(cells, [["a"] * ((room - len(design(cells, [["a"]]))) // 2 + 1)])


def square(room):
    cells = "cell a\njoint j metal 0 0\nend\n"
    side = int((room // 2) ** 0.5)
    while len(design(cells, [["a"] * side] * side)) > room:
        side -= 1
    return design(cells, [["a"] * side] * side)


def pairs(room):
    cells = (list(LETTERS) + [a + b for a in LETTERS for b in LETTERS])[:256]
    texts = "".join("cell %s\nport l left metal 0\nport r right metal 0\nwire metal l r\nend\n" % cell
                    for cell in cells)
    left, row = room - len(design(texts, [[]])), []
    for a, b in itertools.cycle(itertools.product(cells, cells)):
        left -= len(a) + len(b) + 2
        if left < 0:
            return design(texts, [row])
        row += [a, b]


def ports(room):
    lines, left = [], room // 2
    for k in range(8192):
        layer = ("metal", "poly")[k % 2]
        line = "port l%d left %s %d\nport r%d right %s %d\nwire %s l%d r%d\n" % (k, layer, k // 2, k, layer, k // 2,
                layer, k, k)
        left -= len(line)
        if left < 0:
            break
        lines.append(line)
    cells = "cell a\n" + "".join(lines) + "end\n"
    return design(cells, [["a"] * ((room - len(design(cells, [["a"]]))) // 2 + 1)])


def grids(room):
    text, tail = ["sticks 2\ncell a\nend\n"], "grid g%d\nrow a\nend\n"
    left, k = room - len(text[0]), 0
    while len(tail % k) <= left:
        text.append(tail % k)
        left -= len(text[-1])
        k += 1
    return "".join(text)


def main():
    with tempfile.TemporaryDirectory() as folder:
        path = os.path.join(folder, "d")

        def timed(name, size, text):
            assert len(text) <= LONGEST
            with open(path, "w") as f:
                f.write(text)
            run(name, size, ["compact", path, "--tech", TECH], tries=3)

        for side in (1, 64, 170):
            timed("one" if side == 1 else "inverter", "%d x %d" % (side, side), inverters(side))
        timed("full", "1024 names", full())
        for name, make in (("names", names), ("square", square), ("pairs", pairs), ("ports", ports), ("grids", grids)):
            for k in (16, 18, 20):
                timed(name, "2^%d" % k, make(2 ** k))


if __name__ == "__main__":
    if sys.argv[1:2] in (["--help"], ["-h"]):
        print(__doc__.strip())
        sys.exit()
    main()
