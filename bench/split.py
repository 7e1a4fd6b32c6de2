#!/usr/bin/env python3
"""Times `compact .. --split N` on a row of sixteen different cells of about 4,000 items each: split.py [PROGRAM]

For each N it prints the least of three wall times, and how many times as fast it is as N = 1. What it prints speaks of
the machine and of what else runs on it, and nothing is claimed of it: on four processors that are idle, four shares may
be faster, and the answer is the same, which is compared.
"""
import os, random, subprocess, sys, tempfile, time

HERE = os.path.dirname(os.path.abspath(__file__))
TECH = os.path.join(HERE, "..", "examples", "nmos.toml")
PROGRAM = (os.path.abspath(sys.argv[1]) if len(sys.argv) > 1
           else os.path.join(HERE, "..", "crates", "sticks", "out", "sticks"))
CELLS, SIDE = 16, 49


def name(number):
    """Three letters, so that the design's text is not too long."""
    return "".join(chr(97 + number // 26 ** place % 26) for place in (2, 1, 0))


def cell(number):
    """Joints of metal, poly and diffusion, drawn at random, at each point of a square, and wires between neighbours of one
    layer.
    """
    draw = random.Random(number)
    layers = [[draw.choice(["metal", "poly", "diff"]) for _ in range(SIDE)] for _ in range(SIDE)]
    lines = ["joint %s %s %d %d" % (name(r * SIDE + c), layers[r][c], c, r) for r in range(SIDE) for c in range(SIDE)]
    for r in range(SIDE):
        for c in range(SIDE - 1):
            if layers[r][c] == layers[r][c + 1] and draw.random() < 0.7:
                lines.append("wire %s %s %s" % (layers[r][c], name(r * SIDE + c), name(r * SIDE + c + 1)))
    return "cell c%d\n%s\nend\n" % (number, "\n".join(lines))


def design():
    return ("sticks 1\n" + "".join(map(cell, range(CELLS))) + "grid\nrow %s\nend\n"
            % " ".join("c%d" % n for n in range(CELLS)))


def main():
    with tempfile.TemporaryDirectory() as room:
        path = os.path.join(room, "cells.sticks")
        with open(path, "w") as f:
            f.write(design())
        first, answer = None, None
        for shares in (1, 2, 4):
            times = []
            for _ in range(3):
                begun = time.monotonic()
                ran = subprocess.run([PROGRAM, "compact", path, "--tech", TECH, "--split", str(shares)],
                                     capture_output=True)
                times.append(time.monotonic() - begun)
            told = ran.returncode, ran.stdout, ran.stderr
            first, answer = first or min(times), answer or told
            if told != answer:
                sys.exit("split %d answers otherwise than split 1" % shares)
            print("split %d  status %d  %6.3f s  x %.2f" % (shares, ran.returncode, min(times), first / min(times)))


if __name__ == "__main__":
    if sys.argv[1:2] in (["--help"], ["-h"]):
        print(__doc__.strip())
        sys.exit()
    main()
