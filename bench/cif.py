#!/usr/bin/env python3
"""Times `extract` and `check` on CIF texts: cif.py [PROGRAM]

Each line gives the least of three times of either, in user seconds, beside the time that `fmt` takes for a text of 2^20
bytes, and the first line of the netlist and the verdict. Time should grow with the boxes, whatever their order.
  inverters  a square of inverters, as `compact` writes it; 170 x 170 have 1,011,500 boxes
  flat       the same boxes without symbols or calls, in the order of the calls and in a shuffled order
"""
import os, random, re, resource, subprocess, sys, tempfile
from compact import PROGRAM, TECH, text as design_text
from grids import inverters


def timed(words):
    least, said = None, b""
    for _ in range(3):
        before = resource.getrusage(resource.RUSAGE_CHILDREN).ru_utime
        ran = subprocess.run([PROGRAM, *words], stdout=subprocess.PIPE, stderr=subprocess.PIPE)
        took = resource.getrusage(resource.RUSAGE_CHILDREN).ru_utime - before
        if ran.returncode:
            sys.exit("%s: status %d: %s" % (" ".join(words), ran.returncode, ran.stderr.decode()))
        least, said = took if least is None else min(least, took), ran.stdout
    return least, said


def flat(cif):
    """The boxes of a text of one symbol and its calls, one by one, in hundredths of a micron."""
    above = int(re.search(r"DS 1 (\d+) 1;", cif).group(1))
    layer, boxes = "", []
    for word, rest in re.findall(r"^([LB]) (.*);$", cif, re.M):
        if word == "L":
            layer = rest
        else:
            boxes.append((layer, *(int(n) * above for n in rest.split())))
    for x, y in re.findall(r"^C 1 T (\d+) (\d+);$", cif, re.M):
        for layer, l, w, bx, by in boxes:
            yield "L %s;B %d %d %d %d;\n" % (layer, l, w, bx + int(x), by + int(y))


def main():
    with tempfile.TemporaryDirectory() as folder:
        path = lambda name, text: (open(os.path.join(folder, name), "w").write(text), os.path.join(folder, name))[1]
        print("fmt of 2^20 bytes  %.4f s" % timed(["fmt", path("long", design_text(2 ** 20))])[0])
        for side in (21, 60, 170):
            cif = timed(["compact", path("design", inverters(side)), "--tech", TECH])[1].decode()
            for name, text in [("inverters", cif), ("flat", "".join(flat(cif)) + "E\n"), ("shuffled", None)]:
                if text is None:
                    lines = list(flat(cif))
                    random.Random(1).shuffle(lines)
                    text = "".join(lines) + "E\n"
                file, line = path("cif", text), lambda said: said.split(b"\n")[0].decode()
                (nets, netlist), (rules, verdict) = [timed([word, file, "--tech", TECH])
                                                     for word in ("extract", "check")]
                print("%-10s %3d x %3d  extract %.3f s  check %.3f s  %s  %s"
                      % (name, side, side, nets, rules, line(netlist), line(verdict)))


if __name__ == "__main__":
    if sys.argv[1:2] in (["--help"], ["-h"]):
        print(__doc__.strip())
        sys.exit()
    main()
