#!/usr/bin/env python3
"""Compares the answers of two programs: compare.py OLD NEW SEED COUNT [--shapes DIVISOR] [--corpus FOLDER].. [--from I]

Each input is made from SEED and its number alone (from I on, 0 if not given), as those of fuzz.py: changed and made
designs with `compact` (some in shares, some with other passes), `nets`, `slack`, `jog` and `edit`, and changed and made
CIF texts with `check`, `breaks` and `extract`. A difference is a status, an output or a report that is not the same
byte for byte, where OLD has the command: all words that are tried are commands, so it has not what it refuses with 2.
With --shapes both also lay out the designs of shapes.py, with sizes divided by DIVISOR, and the user seconds of both
are printed. The files of a difference are kept in `compare-found`. The last line is 'N different', and the status 1
where N is not 0."""
import argparse
import os
import random
import resource
import shutil
import sys
import fuzz
import fuzz_texts
import shapes


class Pair:
    """The two programs, run one after the other in one folder."""

    def __init__(self, old, new):
        # Programs that bin/try builds take far more addresses than memory.
        self.runner = fuzz.Runner(old, resource.RLIM_INFINITY)
        self.old, self.new, self.different = old, new, 0

    def answer(self, program, words):
        self.runner.program = program
        self.runner.seconds = 0.0
        found, _ = self.runner.run(words)
        return found, self.runner.seconds

    def same(self, words, what):
        """Runs both, tells where they differ, and gives the old answer and the seconds of both."""
        old, before = self.answer(self.old, words)
        new, after = self.answer(self.new, words)
        if old != new and old.status != 2:
            self.different += 1
            folder = os.path.join(KEEP, what.replace(" ", "-"))
            shutil.rmtree(folder, ignore_errors=True)
            shutil.copytree(self.runner.folder, folder)
            told = what, b" ".join(words).decode(errors="replace"), old.status, new.status
            print("%s, %s: %d and %d" % told, flush=True)
        return old, before, after


def design(pair, rng, text, what):
    run = pair.runner
    run.put("d", text)
    others = b"".join(rng.choices([b"x", b"y"], k=rng.randint(0, 6))) + b"xy"
    passes = [] if rng.random() < 0.7 else [b"--passes", others]
    split = [] if rng.random() < 0.8 else [b"--split", b"%d" % rng.randint(2, 8)]
    laid, _, _ = pair.same([b"compact", b"d", b"--tech", b"t", *passes, *split], what)
    if laid.status == 0:
        run.put("c", laid.out)
        pair.same([b"extract", b"c", b"--tech", b"t"], what)
    pair.same([b"nets", b"d", b"--tech", b"t"], what)
    if rng.random() < 0.3:
        run.put("s", fuzz_texts.script(rng, text))
        pair.same([b"slack", b"d", b"--tech", b"t", *passes], what)
        pair.same([b"jog", b"d", b"--tech", b"t", b"--script", b"s", *passes], what)
        pair.same([b"edit", b"d", b"--tech", b"t", b"--script", b"s", *passes], what)


def masks(pair, rng, text, what):
    pair.runner.put("c", text)
    split = [] if rng.random() < 0.8 else [b"--split", b"%d" % rng.randint(2, 8)]
    pair.same([b"check", b"c", b"--tech", b"t", *split], what)
    pair.same([b"breaks", b"c", b"--tech", b"t", b"--most", b"%d" % rng.randint(1, 99)], what)
    pair.same([b"extract", b"c", b"--tech", b"t"], what)


def inputs(pair, seed, numbers, corpora):
    designs = fuzz_texts.corpus(corpora, (".sticks",), ("d",))
    techs = fuzz_texts.corpus([fuzz.EXAMPLES], (".toml",), ())
    cifs = fuzz_texts.corpus(corpora, (".cif",), ("c",))
    for number in numbers:
        rng = random.Random("%d %d" % (seed, number))
        pair.runner.put("t", techs[rng.choice(sorted(techs))])
        what, kind = "input %d" % number, rng.random()
        if kind < 0.3:
            design(pair, rng, fuzz_texts.mutated_design(rng, designs), what)
        elif kind < 0.75:
            design(pair, rng, fuzz_texts.made_design(rng), what)
        elif kind < 0.87:
            masks(pair, rng, fuzz_texts.mutated_cif(rng, cifs), what)
        else:
            masks(pair, rng, fuzz_texts.made_cif(rng), what)


def all_shapes(pair, divisor):
    with open(os.path.join(shapes.EXAMPLES, "nmos.toml"), "rb") as tech:
        pair.runner.put("t", tech.read())
    for name, (make, whole, what, orders) in shapes.SHAPES.items():
        for order in orders:
            pair.runner.put("d", shapes.text_of(make(whole // divisor), order).encode())
            _, before, after = pair.same([b"compact", b"d", b"--tech", b"t"], "%s %s" % (name, order))
            told = name + " " + order, whole // divisor, what, before, after
            print("%-18s %8d %-12s %8.3f s %8.3f s" % told, flush=True)


def main():
    reader = argparse.ArgumentParser(description=__doc__, formatter_class=argparse.RawDescriptionHelpFormatter)
    reader.add_argument("old", type=os.path.abspath)
    reader.add_argument("new", type=os.path.abspath)
    reader.add_argument("seed", type=int)
    reader.add_argument("count", type=int)
    reader.add_argument("--from", dest="first", type=int, default=0)
    reader.add_argument("--shapes", type=int, metavar="DIVISOR")
    reader.add_argument("--corpus", action="append", default=[])
    asked = reader.parse_args()
    corpora = [os.path.abspath(folder) for folder in [fuzz.EXAMPLES, *asked.corpus]]
    pair = Pair(asked.old, asked.new)
    inputs(pair, asked.seed, range(asked.first, asked.first + asked.count), corpora)
    if asked.shapes:
        all_shapes(pair, asked.shapes)
    shutil.rmtree(pair.runner.folder)
    print("%d runs" % pair.runner.runs)
    print("%d different" % pair.different)
    return 1 if pair.different else 0


KEEP = os.path.abspath("compare-found")

if __name__ == "__main__":
    sys.exit(main())
