#!/usr/bin/env python3
"""Times `edit` on one large cell, beside as many answers of `compact`: edit.py [PROGRAM [JOINTS [LINES]]]

The cell has 4,000 joints in rows of 63, and the script 1,000 lines: each adds a limit between two neighbours, and each
tenth drops one again. Printed are, in user seconds:
  edit      the whole script
  compact   as many answers of `compact` in one process: the time of one, over the designs at the start and after each
            tenth of the script, less that of a start of the program, so many times
  ratio     compact by edit
Where perf is found it also counts samples, by the names of functions: the share of the first passes in `edit` (at most,
as the compiler puts small functions into others), and how many times as long a pass of `compact` takes. The status is 1
where `edit` is not faster, or where its first passes take more than a tenth of what a pass takes in `compact`.
"""
import os, re, shutil, subprocess, sys, tempfile
from compact import TECH

HERE = os.path.dirname(os.path.abspath(__file__))
PROGRAM = (os.path.abspath(sys.argv[1]) if len(sys.argv) > 1
           else os.path.join(HERE, "..", "crates", "sticks", "out", "sticks"))
JOINTS = int(sys.argv[2]) if len(sys.argv) > 2 else 4000
LINES = int(sys.argv[3]) if len(sys.argv) > 3 else 1000
ACROSS = 63


def joints():
    return "".join("joint j%d metal %d %d\n" % (k, k % ACROSS, k // ACROSS) for k in range(JOINTS))


def design(limits):
    return "sticks 1\ncell t\n" + joints() + "".join(limits) + "end\ngrid\nrow t\nend\n"


def script():
    """The lines, and the limits that the cell has at the start and after each tenth of them."""
    lines, limits, seen = [], [], []
    for i in range(LINES):
        if i % max(1, LINES // 10) == 0:
            seen.append(["limit " + limit for limit in limits])
        if i % 10 == 9:
            lines.append("drop t %d\n" % (len(limits) // 2))
            del limits[len(limits) // 2]
        else:
            k = (i * 37) % (JOINTS - 1)
            if k % ACROSS == ACROSS - 1:
                k -= 1
            limits.append("x j%d j%d >= %d\n" % (k, k + 1, 12 + i % 20))
            lines.append("add t " + limits[-1])
    return lines, seen + [["limit " + limit for limit in limits]]


def seconds(words, times):
    """User seconds of a run, the mean of so many."""
    before = os.times().children_user
    for _ in range(times):
        ran = subprocess.run([PROGRAM] + words, stdout=subprocess.PIPE, stderr=subprocess.PIPE)
        if ran.returncode:
            sys.exit("%s: status %d: %s" % (" ".join(words), ran.returncode, ran.stderr.decode()))
    return (os.times().children_user - before) / times, ran.stdout.decode()


# where passes run, and the first passes of `edit`: functions of these crates and modules, and those into which the
# compiler puts such functions
PASS = ("pass_run", "shadow_prune", "bar_rows", "bar_tree", "bar_sight", "bar_sweep", "pair_set", "scan_line",
        "pair_rules", "pitch_join", "liao_wong", "round_log", "edge_index", "cons_graph", "par_phase", "fork::calls_from")
FIRST = ("first_pass::", "edit_session", "edit::word_on", "edit::word_over", "edit_command::least")


def share(words, homes, others, times):
    """The share of a run's samples that lie in functions of these crates and modules and not of the others, by their
    names; None where perf is not found.
    """
    if not shutil.which("perf"):
        return None
    with tempfile.NamedTemporaryFile() as data:
        for _ in range(times):
            subprocess.run(["perf", "record", "-q", "-F", "9999", "-o", data.name, PROGRAM] + words,
                           stdout=subprocess.DEVNULL, stderr=subprocess.DEVNULL)
        told = subprocess.run(["perf", "report", "-q", "--stdio", "-i", data.name, "-F", "overhead,symbol"],
                              stdout=subprocess.PIPE, stderr=subprocess.DEVNULL).stdout.decode()
    rows = re.findall(r"^\s*([0-9.]+)%\s+\[\.\]\s+(.*)$", told, re.M)
    return sum(float(percent) for percent, symbol in rows if any(home in symbol for home in homes)
               and not any(home in symbol for home in others)) / 100


def main():
    lines, seen = script()
    with tempfile.TemporaryDirectory() as folder:
        path = lambda name, text: (open(os.path.join(folder, name), "w").write(text), os.path.join(folder, name))[1]
        designs = [path("d%d" % i, design(limits)) for i, limits in enumerate(seen)]
        told = path("script", "".join(lines))
        start, _ = seconds(["fmt", path("one", "sticks 1\ncell t\njoint a metal 0 0\nend\ngrid\nrow t\nend\n")], 20)
        edits = ["edit", designs[0], "--tech", TECH, "--script", told]
        edit, said = seconds(edits, 1)
        if said.count(" done ") != LINES:
            sys.exit("not every line is done: " + said[:200])
        one = sum(seconds(["compact", d, "--tech", TECH], 5)[0] - start for d in designs) / len(designs)
        print("edit      %7.3f s  %d lines over %d joints" % (edit, LINES, JOINTS))
        print("compact   %7.3f s  as many answers, %.2f ms each" % (one * LINES, one * 1000))
        print("ratio     %7.2f" % (one * LINES / edit))
        quick, whole = share(edits, FIRST, (), 1), share(["compact", designs[-1], "--tech", TECH], PASS, FIRST, 1)
        slow = edit > one * LINES
        if quick is not None:
            # a compaction makes two passes
            here, there = quick * edit / LINES, whole * one / 2
            print("first pass  %.3f ms of each line, %.3f ms of a compaction: x %.1f"
                  % (here * 1000, there * 1000, there / max(here, 1e-9)))
            slow = slow or there < 10 * here
    sys.exit(slow)


if __name__ == "__main__":
    if sys.argv[1:2] in (["--help"], ["-h"]):
        print(__doc__.strip())
        sys.exit()
    main()
