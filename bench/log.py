#!/usr/bin/env python3
"""Times `compact` on designs whose rounds make very many raises, in little memory: log.py [PROGRAM [SEED..]]

Each design has a chain of limits that are listed so that a round ends one of them, and each end pushes rows of joints.
Of the raises most are soon of no use; the solver keeps those that the walks still reach. Designs by name, and then
variants by seed:
  row     a chain of 4,000 joints, and a row of 4,000 that each end of a limit pushes by 1 u as a whole
  part    the same, where each end pushes less of the row than the one before: the walks reach half of all raises
  seed N  lengths, limits, steps and rows at random
Each line has user seconds and the most memory in MB; one that is not answered with 0, or holds more than 600 MB, ends
with 'WRONG'. The last line is 'N wrong', and the status 1 where N is not 0."""
import os, random, sys, tempfile
from compact import PROGRAM, TECH, timed

MOST = 600  # MB
BORDER, SPACE = 9, 12  # u, of joints of metal to the border and to one another


def pushed(row, chain, limit, step, rows, shrinks):
    """The text of a cell: the chain in row 1 of the grid, the rows that it pushes in rows 3, 5 and so on. A joint of
    the chain goes up to `limit` u before the next one, when that one has; it pushes the first joint of each row `step`
    u further than the one before. Where the row shrinks, joint k of it stands free of the push of the last k ends."""
    lines = ["joint a metal 0 0\n"]
    lines += ["joint c%d metal %d 1\n" % (i, i) for i in range(chain + 1)]
    for r in range(rows):
        lines += ["joint %s%d metal %d %d\n" % ("rstuvwxyz"[r], k, k, 2 * r + 3) for k in range(row)]
    far = (limit - SPACE + step) * chain + chain + 1
    ends = [BORDER + limit * i + far for i in range(chain + 1)]
    base = ends[chain]
    lines += ["limit x c%d c%d <= %d\n" % (i, i + 1, limit) for i in range(chain)]
    lines.append("limit x a c%d >= %d\n" % (chain, ends[chain] - BORDER))
    for r in range(rows):
        name = "rstuvwxyz"[r]
        for i in range(chain):
            lines.append("limit x c%d %s0 >= %d\n" % (i, name, base + step * (chain - i) - ends[i]))
        if shrinks:
            gap = step * chain // row
            lines += ["limit x a %s%d >= %d\n" % (name, k, base + SPACE * k + min(gap * k, step * chain))
                      for k in range(1, row)]
    return "sticks 1\ncell t\n" + "".join(lines) + "end\ngrid\nrow t\nend\n"


def by_lot(seed):
    lot = random.Random(seed)
    rows = lot.choice((1, 1, 2))
    return pushed(lot.randrange(1000, 4096) // rows, lot.randrange(1000, 4096), lot.choice((13, 14, 17)),
                  lot.choice((1, 2, 3)), rows, lot.random() < 0.5)


def main():
    seeds = [int(word) for word in sys.argv[2:]] or [1, 2, 3, 4]
    designs = ([("row", pushed(4000, 4000, 13, 1, 1, False)), ("part", pushed(4000, 4000, 13, 1, 1, True))]
               + [("seed %d" % seed, by_lot(seed)) for seed in seeds])
    wrong = 0
    with tempfile.TemporaryDirectory() as folder:
        path = os.path.join(folder, "d")
        for name, text in designs:
            with open(path, "w") as file:
                file.write(text)
            user, system, peak, status, told = timed(["compact", path, "--tech", TECH])
            bad = status != 0 or peak > MOST
            wrong += bad
            print("%-8s %9d bytes  %7.2f s  %5.0f MB  status %d  %s%s"
                  % (name, len(text), user + system, peak, status, told, "  WRONG" if bad else ""), flush=True)
    print("%d wrong" % wrong)
    return 1 if wrong else 0


if __name__ == "__main__":
    if sys.argv[1:2] in (["--help"], ["-h"]):
        print(__doc__.strip())
        sys.exit()
    sys.exit(main())
