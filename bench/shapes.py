"""Designs near the limits, each made of a size, and the orders in which their lines may stand.

A cell is its name, its nodes or uses, and its wires and limits; each of these lists is put into an order by itself, as
what a line names has to stand before it. ORDERS are `listed`, as the shape lists them, `reversed` and `shuffled`, the
same each time. SHAPES has for each shape what makes its cells, its whole size, what the size counts, and the orders
that are timed. EIGHTHS has the size that counts as an eighth where the pairs that are kept grow with the square of the
size: that with an eighth of the inequalities, over both passes.
"""
import os, random, re

EXAMPLES = os.path.join(os.path.dirname(os.path.abspath(__file__)), "..", "examples")
ORDERS = {
    "listed": lambda lines: lines,
    "reversed": lambda lines: lines[::-1],
    "shuffled": lambda lines: random.Random(1).sample(lines, len(lines)),
}


def text_of(cells, order="listed"):
    put = ORDERS[order]
    lines = ["sticks 1"]
    for name, nodes, wires in cells:
        lines += ["cell " + name] + put(nodes) + put(wires) + ["end"]
    return "\n".join(lines + ["grid", "row " + cells[-1][0], "end", ""])


def joints_in_row(n, name="j", first=0, row=0, layer="metal"):
    return ["joint %s%d %s %d %d" % (name, i, layer, first + i, row) for i in range(n)]


def row(n):
    return [("t", joints_in_row(n), [])]


def uses(weight):
    """Rows of 14 joints, doubled by uses inside uses."""
    levels = (weight // 16).bit_length() - 1
    cells = [("u0", joints_in_row(14), [])]
    for k in range(levels):
        cells.append(("u%d" % (k + 1), ["use a u%d 0 0" % k, "use b u%d 0 %d" % (k, 2 ** k)], []))
    return cells


def sixteen(nodes, apart=1):
    """Sixteen rows, each a use of a row of these nodes."""
    return [("line", nodes, []), ("t", ["use u%d line 0 %d" % (r, apart * r) for r in range(16)], [])]


def many(weight, layer="metal"):
    return sixteen(joints_in_row(weight // 16 - 1, layer=layer))


def poly(weight):
    return many(weight, "poly")


def diffusion(joints):
    return many(joints, "diff")


def contacts(n):
    return sixteen(["contact c%d diff %d 0" % (i, i) for i in range(n // 16)])


def transistors(n):
    return sixteen(["fet f%d enh h %d 0 4 4" % (i, i) for i in range(n // 16)])


def ladder(columns):
    """Columns of 20 joints, each wired from end to end."""
    joints = ["joint a%d_%d metal %d %d" % (c, r, c, r) for c in range(columns) for r in range(20)]
    wires = ["wire metal a%d_%d a%d_%d" % (c, r, c, r + 1) for c in range(columns) for r in range(19)]
    return [("t", joints, wires)]


def nets(n):
    """Two rows of joints, one behind the other, each wired to one net: no item of a row shadows another of it."""
    wires = ["wire metal %s%d %s%d" % (r, i, r, i + 1) for r in "ab" for i in range(n - 1)]
    return [("t", joints_in_row(n, "a") + joints_in_row(n, "b", n), wires)]


def field(n):
    """A node of each kind but transistors, drawn at random, at each point of a square."""
    draw = random.Random(n)
    kinds = ["joint %s metal %d %d", "joint %s poly %d %d", "joint %s diff %d %d", "contact %s diff %d %d",
             "contact %s poly %d %d"]
    side = int(n ** 0.5)
    return [("t", [draw.choice(kinds) % ("n%d_%d" % (c, r), c, r) for r in range(side) for c in range(side)], [])]


def inverter():
    """The cell of the example without its ports and their wires."""
    with open(os.path.join(EXAMPLES, "inverter.sticks")) as f:
        lines = f.read().partition("cell inv\n")[2].partition("end\n")[0].splitlines()
    ports = {line.split()[1] for line in lines if line.startswith("port ")}
    nodes = [line for line in lines if not re.match("port|wire", line)]
    return "inv", nodes, [line for line in lines if line.startswith("wire ") and not ports & set(line.split()[2:4])]


def beside(n):
    return [inverter(), ("t", ["use i%d inv %d 0" % (i, 2 * i) for i in range(n)], [])]


def above(n):
    return [inverter(), ("t", ["use i%d inv 0 %d" % (i, 5 * i) for i in range(n)], [])]


def limits(n):
    """A row of joints, each at most 24 lambda from the next."""
    return [("t", joints_in_row(n), ["limit x j%d j%d <= 48" % (i, i + 1) for i in range(n - 1)])]


def raised(n):
    """The same row, and the last joint so far off that each limit holds with equality: the joints are raised from right
    to left.
    """
    return [("t", joints_in_row(n), ["limit x j%d j%d <= 20" % (i, i + 1) for i in range(n - 1)]
             + ["limit x j0 j%d >= %d" % (n - 1, 20 * (n - 1))])]


def edges(n):
    """Two wired rows, one behind the other, of n and n - 2 joints; with so many limits that n = 1,024 gives as many
    inequalities as a pass may have.
    """
    wires = ["wire metal %s%d %s%d" % (r, i, r, i + 1) for r, k in (("a", n), ("b", n - 2)) for i in range(k - 1)]
    return [("t", joints_in_row(n, "a") + joints_in_row(n - 2, "b", n),
             wires + ["limit x a0 a1 >= 0"] * (2058 * n // 1024))]


def heap(n):
    """Joints on one spot, each wired to one joint beside it."""
    joints = ["joint c metal 1 0"] + ["joint j%d metal 0 0" % i for i in range(n)]
    return [("t", joints, ["wire metal j%d c" % i for i in range(n)])]


def weave(n):
    """Metal wires across over poly wires up."""
    ends = [("metal", "a%d", 0, 1), ("metal", "b%d", n + 1, 1), ("poly", "c%d", 1, 0), ("poly", "d%d", 1, n + 1)]
    joints = ["joint %s %s %d %d" % (name % i, layer, *((col, row + i) if layer == "metal" else (col + i, row)))
              for layer, name, col, row in ends for i in range(n)]
    return [("t", joints, ["wire %s %s%d %s%d" % (layer, low, i, high, i) for layer, low, high in
                           (("metal", "a", "b"), ("poly", "c", "d")) for i in range(n)])]


def buried(n):
    """Poly wires and diffusion wires at one buried contact, as many of either."""
    return [("t", ["joint d diff 0 0", "buried b 1 0", "joint p poly 2 0"],
             ["wire diff d b"] * n + ["wire poly b p"] * n)]


def columns(items):
    """Joints in a row, each tied to the next by 21 wires beside one another: one net, so no two are bound."""
    n = items // 22
    return [("t", joints_in_row(n), ["wire metal j%d j%d" % (i, i + 1) for i in range(n - 1)] * 21)]


def upright(name, layer, column, rows, n):
    """The joints at the ends of wires that stand on one another in a column, and the wires."""
    joints = ["joint %s%d %s %d %d" % (name, k, layer, column, row) for k, row in enumerate((0, rows))]
    return joints, ["wire %s %s0 %s1" % (layer, name, name)] * n


def between(n, layer="metal", what="joint m metal 1 1"):
    """Two nets of upright wires, and between them a part that covers none of them as a whole."""
    (a, first), (b, second) = upright("a", layer, 0, 2, n), upright("b", layer, 2, 2, n)
    return [("t", a + [what] + b, first + second)]


def poly_between(n):
    return between(n, "poly", "joint m poly 1 1")


def facing(n, steps=0):
    """Joints of as many nets, on top of one another or each a step to the right, and upright wires of one net."""
    joints = ["joint j%d metal %d %d" % (k, k if steps else 0, k) for k in range(steps or n)]
    ends, wires = upright("a", "metal", steps + 1, (steps or n) - 1, n)
    return [("t", joints + ends, wires)]


def stairs(n):
    return facing(n, n // 4)


ALL = ("listed", "reversed", "shuffled")
BOTH = ("listed", "reversed")
SHAPES = {
    "uses": (uses, 65536, "items", ALL),
    "many": (many, 65536, "items", ALL),
    "ladder": (ladder, 1000, "columns", ALL),
    "nets": (nets, 1000, "joints each", ALL),
    "field": (field, 6000, "nodes", ALL),
    "beside": (beside, 512, "inverters", BOTH),
    "above": (above, 512, "inverters", BOTH),
    "row": (row, 4000, "joints", BOTH),
    "limits": (limits, 4096, "joints", BOTH),
    "raised": (raised, 4096, "joints", BOTH),
    "edges": (edges, 1024, "joints", BOTH),
    "heap": (heap, 16000, "joints", BOTH),
    "weave": (weave, 3900, "wires each way", BOTH),
    "buried": (buried, 10000, "wires each", BOTH),
    "poly": (poly, 65536, "items", BOTH),
    "diffusion": (diffusion, 32768, "joints", BOTH),
    "contacts": (contacts, 16320, "contacts", BOTH),
    "transistors": (transistors, 13000, "transistors", BOTH),
    "columns": (columns, 44000, "items", BOTH),
    "between": (between, 8000, "wires each", BOTH),
    "poly_between": (poly_between, 8000, "wires each", BOTH),
    "facing": (facing, 1000, "joints and wires", BOTH),
    "stairs": (stairs, 2000, "wires", BOTH),
}

EIGHTHS = {"nets": 352, "edges": 361, "beside": 118, "above": 142, "facing": 349, "stairs": 695}


def eighth_of(name, whole):
    """The size of a shape at which it has an eighth of what it has at the whole size."""
    return whole * EIGHTHS[name] // SHAPES[name][1] if name in EIGHTHS else whole // 8
