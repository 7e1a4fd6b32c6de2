#!/usr/bin/env python3
"""Compares `check` of long CIF texts in shares with that of another program: long_texts.py OLD NEW SEED COUNT

Texts of a megabyte and more are read in portions, which begin behind semicolons (ahead.rt of cif_read). Each text has
commands of one sort, from SEED and its number: boxes, comments with semicolons in them, empty commands, user
extensions, calls, blanks, long comments; some have a fault somewhere, no end, or something after it. OLD checks it in
one piece, and NEW in 1, 2, 3, 4, 7 and 64 shares; every third is extracted by both. A status, an output or a refusal
that is not the same is printed. The last line is 'N different', and the status 1 where N is not 0."""
import os
import random
import subprocess
import sys
import tempfile
from compact import TECH

SIZES = 1_048_500, 1_048_576, 1_048_600, 1_200_000, 2_097_100, 2_200_000, 3_300_000, 5_000_000
SHARES = 1, 2, 3, 4, 7, 64
FAULTS = "B 1 2;", "Q;", "(", "E", "DS 1;", "DF;", "B 3000 3000 1 1;", "C 99;", "B 99999999999 2 2 2;", ")"


def box(k):
    return f"B 3000 3000 {6000 * (k % 1024)} {6000 * (k // 1024)};"


def commands(sort, k, draw):
    """Some commands of a sort, of which these are the k-th."""
    if sort == "boxes":
        return box(k) + "\n"
    if sort == "comments":
        return f"(c;{k};(n;)e) {box(k)}"
    if sort == "empty":
        return ";" if draw.random() < 0.99 else box(k)
    if sort == "extensions":
        return box(k) if draw.random() < 0.2 else f"9 any thing ( {k};"
    if sort == "calls":
        return "C 1;" if k % 2 else "C 1 ;;"
    if sort == "layers":
        return f"L NI;{box(k)}L NM;{box(k)}"
    if sort == "blanks":
        return box(k).replace(" ", " " * draw.randrange(1, 30))
    return draw.choice([box(k), "(%s)" % (";" * draw.randrange(1, 4000)), "L NM;", "9;"])


def text(seed, number):
    draw = random.Random(f"{seed} {number}")
    sort = draw.choice(["boxes", "comments", "empty", "extensions", "calls", "layers", "blanks", "all"])
    size, faults = draw.choice(SIZES), draw.choice([0, 0, 0, 1e-6, 3e-6])
    scale, layer = draw.choice(["", "2 1", "25 2"]), draw.choice(["NM", "NP", "XX"])
    parts = [f"DS 1 {scale};L {layer};B 600 600 300 300;DF;L NM;"]
    long, k = len(parts[0]), 0
    while long < size:
        parts.append(commands(sort, k, draw))
        if draw.random() < faults:
            parts.append(draw.choice(FAULTS))
        long, k = long + len(parts[-1]), k + 1
    parts.append(draw.choice(["E\n"] * 8 + ["B 3000 3000 9 9", "", "E\n x"]))
    return "".join(parts)


def answer(program, command, path, *words):
    ran = subprocess.run([program, command, path, "--tech", TECH, *words], capture_output=True, check=False)
    return ran.returncode, ran.stdout, ran.stderr


def main(old, new, seed, count):
    different = 0
    with tempfile.TemporaryDirectory() as folder:
        path = os.path.join(folder, "text")
        for number in range(int(count)):
            with open(path, "w") as file:
                file.write(text(seed, number))
            wanted = answer(old, "check", path)
            wrong = [n for n in SHARES if answer(new, "check", path, "--split", str(n)) != wanted]
            if number % 3 == 0 and answer(old, "extract", path) != answer(new, "extract", path):
                wrong.append("extract")
            if wrong:
                print(f"text {number}, status {wanted[0]}: {wrong}")
            different += len(wrong)
    print(f"{different} different")
    sys.exit(different > 0)


if __name__ == "__main__":
    if len(sys.argv) != 5:
        sys.exit(__doc__.strip())
    main(*sys.argv[1:])
