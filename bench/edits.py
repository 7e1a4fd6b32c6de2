#!/usr/bin/env python3
"""Holds `edit` against `compact` on small designs and scripts at random: edits.py [COUNT [SEED [PROGRAM]]]

Each design has up to three cells of joints with limits, in a grid of one or two rows; each of the ten lines of its
script adds a limit to a cell of the grid or drops one. After each line the sizes, or the number of the refusal, have to
be those that `compact` ends with over the design that was edited here, with the same passes. The last line is 'N lines,
M wrong', and the status 1 where M is not 0.
"""
import os, random, re, subprocess, sys, tempfile
from compact import TECH

HERE = os.path.dirname(os.path.abspath(__file__))
if sys.argv[1:2] in (["--help"], ["-h"]):
    print(__doc__.strip())
    sys.exit()
COUNT, SEED = [int(sys.argv[k]) if len(sys.argv) > k else default for k, default in ((1, 200), (2, 1))]
PROGRAM = (os.path.abspath(sys.argv[3]) if len(sys.argv) > 3
           else os.path.join(HERE, "..", "crates", "sticks", "out", "sticks"))


class Design:
    def __init__(self, lot):
        self.lot, names = lot, "abc"[: lot.randint(1, 3)]
        self.joints = {name: self.cell() for name in names}
        self.limits = {name: [self.limit(name) for _ in range(lot.randrange(3))] for name in names}
        across = lot.randint(1, 3)
        self.rows = [[lot.choice(names) for _ in range(across)] for _ in range(lot.randint(1, 2))]
        self.masters = list(dict.fromkeys(name for row in self.rows for name in row))

    def cell(self):
        places = self.lot.sample([(col, row) for col in range(4) for row in range(4)], self.lot.randint(2, 5))
        layers = ("metal", "metal", "poly")
        return ["joint j%d %s %d %d\n" % (k, self.lot.choice(layers), *place) for k, place in enumerate(places)]

    def limit(self, name):
        a, b = self.lot.sample(range(len(self.joints[name])), 2)
        return "%s j%d j%d %s %d" % (self.lot.choice("xy"), a, b, self.lot.choice(("<=", ">=", ">=")),
                                     self.lot.randint(-10, 60))

    def line(self):
        """A line of a script, whose edit is made."""
        name = self.lot.choice(self.masters)
        limits = self.limits[name]
        if limits and self.lot.random() < 0.4:
            place = self.lot.randrange(len(limits))
            del limits[place]
            return "drop %s %d\n" % (name, place)
        limits.append(self.limit(name))
        return "add %s %s\n" % (name, limits[-1])

    def text(self):
        cells = "".join("cell %s\n%s%send\n"
                        % (name, "".join(joints), "".join("limit %s\n" % it for it in self.limits[name]))
                        for name, joints in self.joints.items())
        return "sticks 1\n" + cells + "grid\n" + "".join("row %s\n" % " ".join(row) for row in self.rows) + "end\n"


def compacted(path, masters, passes):
    """What `compact` comes to, in the word of `edit`."""
    ran = subprocess.run([PROGRAM, "compact", path, "--tech", TECH, "--passes", passes], stdout=subprocess.DEVNULL,
                         stderr=subprocess.PIPE)
    if ran.returncode:
        return "code %d" % ran.returncode
    sizes, axis = {}, ""
    for line in ran.stderr.decode().splitlines():
        axis = line.split()[2] if line.startswith("pass ") else axis
        told = re.match(r"cell (\S+) size (-?\d+)", line)
        if told:
            sizes[told[1], axis] = told[2]
    return "done" + "".join(" %s %s %s" % (name, sizes[name, "x"], sizes[name, "y"]) for name in masters)


def main():
    lot, lines, wrong = random.Random(SEED), 0, 0
    with tempfile.TemporaryDirectory() as folder:
        path = lambda name, text: (open(os.path.join(folder, name), "w").write(text), os.path.join(folder, name))[1]
        for _ in range(COUNT):
            design, passes = Design(lot), lot.choice(("xy", "yx", "xyx", "yxy", "xxy"))
            first, script, wanted = path("first", design.text()), [], []
            for i in range(10):
                script.append(design.line())
                wanted.append("step %d %s" % (i, compacted(path("after", design.text()), design.masters, passes)))
            ran = subprocess.run([PROGRAM, "edit", first, "--tech", TECH, "--script", path("script", "".join(script)),
                                  "--passes", passes], stdout=subprocess.PIPE, stderr=subprocess.DEVNULL)
            if ran.returncode == 10:
                continue  # the start layout has a clash
            told = ran.stdout.decode().splitlines()
            lines, off = (lines + len(wanted), [(one, other) for one, other in zip(told + [""] * len(wanted), wanted)
                                                if one != other])
            wrong += len(off)
            if off:
                print("%r and not %r\n%s%s" % (*off[0], open(first).read(), "".join(script)))
    print("%d lines, %d wrong" % (lines, wrong))
    sys.exit(wrong > 0)


if __name__ == "__main__":
    main()
