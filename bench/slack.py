#!/usr/bin/env python3
"""Compares the greatest places of `slack` with the least ones of the mirrored design: slack.py [SEED [COUNT [PROGRAM]]]

Where a design is mirrored, each cell by itself and each row of its grids from end to end, every inequality of the first
pass is turned round: a part that lay at most at G in a cell of size S lies at least at S - G there. So the greatest
places, which are found by going back from the far borders, have to be those that the other design's rounds find from
the origin. Random designs of one to three cells, with ports, limits and grids, are mirrored on x (passes xy) and on y
(passes yx). The last line is 'N tried, M laid out, K wrong', and the status 1 where K is not 0."""
import os, random, subprocess, sys, tempfile
from compact import PROGRAM, TECH

LAYERS = ["metal", "poly", "diff"]


def cell(rng, name, places):
    """The forms of a cell: lists of words, in which columns and rows are numbers."""
    wide, high = rng.randint(1, 5), rng.randint(1, 5)
    forms, at = [], {}
    for row in range(high):
        for col in range(wide):
            if rng.random() < 0.55:
                node = f"n{col}_{row}"
                kind = rng.choice(["joint"] * 6 + ["contact", "fet"])
                if kind == "joint":
                    layer = rng.choice(LAYERS[:1] * 3 + LAYERS)
                    forms.append(["joint", node, layer, col, row]
                                 + ([str(rng.choice([8, 10, 12]))] if rng.random() < 0.2 else []))
                    at[col, row] = node, {layer}
                elif kind == "contact":
                    lower = rng.choice(["diff", "poly"])
                    forms.append(["contact", node, lower, col, row])
                    at[col, row] = node, {"metal", lower}
                else:
                    forms.append(["fet", node, rng.choice(["enh", "dep"]), rng.choice("hv"), col, row,
                                  str(rng.choice([4, 8])), str(rng.choice([4, 8]))])
                    at[col, row] = node, set()
    for row in places:  # a wire from border to border, or to a joint
        forms += [["port", f"l{row}", "left", "metal", row], ["port", f"r{row}", "right", "metal", row]]
        ends = sorted(col for (col, r), (_, layers) in at.items() if r == row and "metal" in layers)
        if ends:
            forms += [["wire", "metal", f"l{row}", at[ends[0], row][0]],
                      ["wire", "metal", at[ends[-1], row][0], f"r{row}"]]
        else:
            forms.append(["wire", "metal", f"l{row}", f"r{row}"])
    for (col, row), (node, layers) in at.items():
        for step in ((1, 0), (0, 1)):
            other = at.get((col + step[0], row + step[1]))
            if other and rng.random() < 0.45 and layers & other[1]:
                forms.append(["wire", rng.choice(sorted(layers & other[1])), node, other[0]])
    nodes = [node for node, _ in at.values()]
    for _ in range(rng.choice([0, 0, 1, 2])):
        if len(nodes) > 1:
            a, b = rng.sample(nodes, 2)
            forms.append(["limit", rng.choice("xy"), a, b, rng.choice(["<=", ">="]), str(rng.randint(-5, 60))])
    return name, forms


def mirrored(cells, rows, axis):
    """The same cells and rows, from right to left or from top to bottom."""
    sides = {"left": "right", "right": "left"} if axis == "x" else {"bottom": "top", "top": "bottom"}
    turned = []
    for name, forms in cells:
        reach = [form[3 if axis == "x" else 4] for form in forms if form[0] in ("joint", "contact")]
        reach += [form[4 if axis == "x" else 5] for form in forms if form[0] == "fet"]
        across = ("left", "right") if axis == "y" else ("bottom", "top")
        reach += [form[4] for form in forms if form[0] == "port" and form[2] in across]
        most, out = max(reach, default=0), []
        for form in forms:
            form = list(form)
            if form[0] in ("joint", "contact", "fet"):
                at = {"joint": 3, "contact": 3, "fet": 4}[form[0]] + (axis == "y")
                form[at] = most - form[at]
            elif form[0] == "port":
                if form[2] in across:
                    form[4] = most - form[4]
                form[2] = sides.get(form[2], form[2])
            elif form[0] == "limit" and form[1] == axis:
                form[2], form[3] = form[3], form[2]
            out.append(form)
        turned.append((name, out))
    return turned, [row[::-1] for row in rows] if axis == "x" else rows[::-1]


def text(cells, rows):
    lines = ["sticks 1"]
    for name, forms in cells:
        lines += [f"cell {name}"] + [" ".join(map(str, form)) for form in forms] + ["end"]
    return "\n".join(lines + ["grid"] + ["row " + " ".join(row) for row in rows] + ["end", ""])


def slacks(program, folder, design, passes, axis):
    """By cell its size, and by name the least and the greatest place, in the first pass; or None where it is refused.
    """
    with open(os.path.join(folder, "d"), "w") as file:
        file.write(design)
    ran = subprocess.run([program, "slack", "d", "--tech", "t", "--passes", passes], cwd=folder, capture_output=True,
                         text=True)
    if ran.returncode:
        return None, ran.stderr
    sizes, places, here = {}, {}, None
    for line in ran.stdout.splitlines():
        words = line.split()
        if words[0] == "axis":
            here = words[1]
            assert (words[3] == "1") == (here == axis), line
        elif here == axis and words[0] == "cell":
            sizes[words[1]] = int(words[3])
        elif here == axis:
            assert int(words[4]) - int(words[2]) == int(words[6]) >= 0, line
            places[words[0]] = int(words[2]), int(words[4])
    return (sizes, places), ""


def main():
    seed, count = int(sys.argv[1]) if len(sys.argv) > 1 else 1, int(sys.argv[2]) if len(sys.argv) > 2 else 1000
    program = os.path.abspath(sys.argv[3]) if len(sys.argv) > 3 else PROGRAM
    laid_out = wrong = 0
    with tempfile.TemporaryDirectory() as folder:
        with open(os.path.join(folder, "t"), "w") as file:
            file.write(open(TECH).read())
        for number in range(count):
            rng = random.Random(f"{seed} {number}")
            places = rng.choice([[], [], [0], [0, 2]])
            cells = [cell(rng, "abc"[k], places) for k in range(rng.choice([1, 1, 2, 3]))]
            across, up = rng.choice([1, 1, 2, 3]), rng.choice([1, 1, 2])
            rows = [[rng.choice(cells)[0] for _ in range(across)] for _ in range(up)]
            axis = rng.choice("xy")
            passes = "xy" if axis == "x" else "yx"
            one, said = slacks(program, folder, text(cells, rows), passes, axis)
            other, told = slacks(program, folder, text(*mirrored(cells, rows, axis)), passes, axis)
            if one is None and other is None:
                continue
            if one is None or other is None:
                # the second pass is over another layout, and may alone be refused
                if not (said + told).startswith("pass 1"):
                    wrong += 1
                    print(f"input {number}: one alone is refused: {said}{told}{text(cells, rows)}")
                continue
            laid_out += 1
            turned = {name: (one[0][name.split(":")[0]] - most, one[0][name.split(":")[0]] - least)
                      for name, (least, most) in one[1].items()}
            if one[0] != other[0] or turned != other[1]:
                wrong += 1
                print(f"input {number}, axis {axis}:\n{text(cells, rows)}{one}\n{other}")
    print(f"{count} tried, {laid_out} laid out, {wrong} wrong")
    return wrong != 0


if __name__ == "__main__":
    if sys.argv[1:2] in (["--help"], ["-h"]):
        print(__doc__.strip())
        sys.exit()
    sys.exit(main())
