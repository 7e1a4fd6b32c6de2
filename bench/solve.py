#!/usr/bin/env python3
"""Times the solver on constraint graphs of growing size: solve.py [PROGRAM]

`solve_bench` makes a graph of VARS variables and EDGES edges, of which the last BACK are backward in the order of the
numbers, always the same one, and solves it. The time is that of the whole process, so the making of the graph is in it.
The table has for each size 10 backward edges, and then half of those that do not come from the origin. Each line gives
the least of three times, and what the program printed. PROGRAM is `solve_bench` as `rt run` builds it in its folder;
where none is given and it is not there yet, it is built first, which proves the crates below it.
"""
import os, subprocess, sys, time

HERE = os.path.dirname(os.path.abspath(__file__))
PROGRAM = (os.path.abspath(sys.argv[1]) if len(sys.argv) > 1
           else os.path.join(HERE, "..", "crates", "solve_bench", "out", "solve_bench"))
SIZES = ((1000, 100000), (65536, 1000000), (65536, 4194304))


def timed(words):
    begin = time.time()
    done = subprocess.run([PROGRAM] + [str(word) for word in words], capture_output=True, text=True)
    return time.time() - begin, (done.stdout + done.stderr).strip(), done.returncode


def build():
    if len(sys.argv) < 2 and not os.path.exists(PROGRAM):
        print("building solve_bench, which proves every crate below it", file=sys.stderr)
        subprocess.run(["rt", "run"], cwd=os.path.join(HERE, "..", "crates", "solve_bench"), stdout=subprocess.DEVNULL)


def main():
    build()
    print("%6s %8s %8s  %8s" % ("vars", "edges", "backward", "seconds"))
    for size, edges in SIZES:
        for back in (10, (edges - size + 1) // 2):
            seconds, line, status = min(timed((size, edges, back)) for _ in range(3))
            print("%6d %8d %8d  %8.3f  %s, status %d" % (size, edges, back, seconds, line, status))


if __name__ == "__main__":
    if sys.argv[1:2] in (["--help"], ["-h"]):
        print(__doc__.strip())
        sys.exit()
    main()
