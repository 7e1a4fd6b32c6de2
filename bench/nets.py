#!/usr/bin/env python3
"""Compares `nets` with `extract` of the masks, and its names with an own reading: nets.py [PROGRAM [SEED [COUNT]]]

The designs are those of examples/ and examples/cookbook/, and COUNT small ones made from SEED (fuzz_texts.py), 0 and 1
if not given. Of each design that `compact` lays out the netlist of its masks is set beside what `nets` writes: as many
nets and transistors, the same counts on each net's line, the same kind, gate, low and high on each transistor's line.
Of each that `nets` answers, laid out or not, its whole output is written here a second time: by the wires between the
names of a design and the ports that meet, with no box and no layout (docs/FORMATS.md, Nets by name). A design
that `compact` refuses for a clash, a cycle, too many inequalities or its extent is one that `nets` answers; every other
refusal has to be the same.

A design that is answered otherwise is printed; the last line is 'N designs, L laid out, K wrong', and the status 1
where K is not 0."""
import collections, os, random, re, subprocess, sys, tempfile
from compact import EXAMPLES, HERE, PROGRAM, TECH, TECH2
import fuzz_texts

sys.path.insert(0, os.path.join(HERE, "..", "bin"))
from design import Design
from drawn import direction

# What conducts, in the order in which pieces are numbered and counted.
LAYERS = ("diff", "poly", "metal")
# What `compact` refuses after all that `nets` looks at.
LATER = re.compile(r"(?s)sticks: clash in .*|sticks: too large: (?:edges|extent)\n"
                   r"|(?:.*\n)?pass \d+ [xy] unsatisfiable .*")


class Cell:
    """A master: its named parts in order, the layers of its pieces, and what its wires join.

    A part is a name or, of a transistor, a name with `.gate`, `.low` or `.high`; a wire is `#` and its number, a port
    its own name.
    """

    def __init__(self, inlined):
        self.names, self.links, self.fets = [], [], []
        self.pieces = {layer: [] for layer in LAYERS}
        for name, node in inlined.nodes.items():
            parts = [f"{name}.{it}" for it in ("gate", "low", "high")] if node.form == "fet" else [name]
            self.names += parts
            if node.form == "fet":
                self.fets.append((node.line.words[2], name))
                self.pieces["poly"].append(parts[0])
                self.pieces["diff"] += parts[1:]
            else:
                layers = {"contact": ("metal", node.layer), "buried": ("diff", "poly")}.get(node.form, (node.layer,))
                for layer in layers:
                    self.pieces[layer].append(name)
        self.names += list(inlined.ports)
        for wire in inlined.wires:
            self.pieces[wire.layer].append(wire.name)
            self.links += [(wire.name, self.end(inlined, wire, name)) for name in wire.ends]
        self.ports = {side: self.side(inlined, side) for side in ("left", "right", "bottom", "top")}

    @staticmethod
    def end(inlined, wire, name):
        """The part of a node at which a wire ends."""
        node = inlined.nodes.get(name)
        if not node or node.form != "fet":
            return name
        if wire.layer == "poly":
            return f"{name}.gate"
        return f"{name}.low" if direction(wire, inlined)[2] == name else f"{name}.high"

    @staticmethod
    def side(inlined, side):
        """The ports of a side, by place, layer and line."""
        mine = [it for it in inlined.ports.values() if it.line.words[2] == side]
        mine.sort(key=lambda it: (it.number_at(4), LAYERS.index(it.layer), it.line.number))
        return [it.name for it in mine]


class Nets:
    """The nets of all instances of a design, with their names."""

    def __init__(self, text):
        design = Design(text)
        rows = [[row.words[1:] for row in grid.rows] for grid in design.grids]
        cells = {name: Cell(design.inlined(name)) for grid in rows for row in grid for name in row}
        # Each instance by its grid, its row and its column, in order.
        self.all = {(g, r, c): cells[name] for g, grid in enumerate(rows) for r, row in enumerate(grid)
                    for c, name in enumerate(row)}
        self.grids = [grid.name for grid in design.grids]
        self.to = {}
        for at, cell in self.all.items():
            for a, b in cell.links:
                self.join((at, a), (at, b))
            for step, low, high in (((0, 0, 1), "right", "left"), ((0, 1, 0), "top", "bottom")):
                beside = tuple(map(sum, zip(at, step)))
                for a, b in zip(cell.ports[low], self.all[beside].ports[high] if beside in self.all else []):
                    self.join((at, a), (beside, b))

    def root(self, part):
        """The part that stands for all that wires and ports join to this one."""
        while part in self.to:
            part = self.to[part]
        return part

    def join(self, a, b):
        a, b = self.root(a), self.root(b)
        if a != b:
            self.to[a] = b

    def prefix(self, at):
        """What stands before the names of an instance."""
        g, r, c = at
        grid = self.grids[g] + "." if self.grids[g] else ""
        return f"{grid}{r}.{c}:" if len(self.all) > 1 else ""

    def text(self):
        """What `nets` writes."""
        number, devices = {}, []
        counts, names = collections.defaultdict(lambda: [0, 0, 0]), collections.defaultdict(list)
        for at, cell in self.all.items():
            for k, layer in enumerate(LAYERS):
                for part in cell.pieces[layer]:
                    net = number.setdefault(self.root((at, part)), len(number))
                    counts[net][k] += 1
        for at, cell in self.all.items():
            for part in cell.names:
                names[number[self.root((at, part))]].append(self.prefix(at) + part)
            for kind, name in cell.fets:
                ends = [number[self.root((at, f"{name}.{it}"))] for it in ("gate", "low", "high")]
                devices.append("device %d %s %s gate %d low %d high %d\n"
                               % (len(devices), kind, self.prefix(at) + name, *ends))
        lines = ["net %d nd %d np %d nm %d %s\n" % (k, *counts[k], " ".join(names[k])) for k in range(len(number))]
        return "nets %d devices %d\n%s%s" % (len(number), len(devices), "".join(lines), "".join(devices))


def without_names(text):
    """What `nets` tells beside names."""
    text = re.sub(r"(?m)^(net \d+ nd \d+ np \d+ nm \d+) .*", r"\1", text)
    return re.sub(r"(?m)^(device \d+ \S+) \S+", r"\1", text)


def without_sizes(text):
    """What `extract` tells beside sizes and places."""
    return re.sub(r"(?m)^(device \d+ \S+) w \d+ l \d+(.*) at \S+ \S+$", r"\1\2", text)


def ran(*words):
    it = subprocess.run([PROGRAM, *words], stdout=subprocess.PIPE, stderr=subprocess.PIPE, text=True)
    return it.returncode, it.stdout, it.stderr


def faults(folder, text, tech):
    """What is wrong with how a design is answered, and whether it was laid out."""
    design, masks = (os.path.join(folder, name) for name in "dc")
    with open(design, "w") as file:
        file.write(text)
    laid_out, said = (ran(word, design, "--tech", tech) for word in ("compact", "nets"))
    if laid_out[0] and not LATER.fullmatch(laid_out[2]):
        return ([] if said == laid_out else ["refused otherwise than by compact: %r" % (said,)]), False
    wanted = 0, Nets(text).text(), ""
    wrong = [] if said == wanted else ["status %d %s%sin place of\n%s" % (*said, wanted[1])]
    if not laid_out[0]:
        with open(masks, "w") as file:
            file.write(laid_out[1])
        found = ran("extract", masks, "--tech", tech)
        if without_names(said[1]) != without_sizes(found[1]) or found[0]:
            wrong.append("extract finds\n" + found[1] + found[2])
    return wrong, not laid_out[0]


def designs(seed, count):
    """Names, texts and technologies."""
    for folder in (EXAMPLES, os.path.join(EXAMPLES, "cookbook")):
        for name in sorted(os.listdir(folder)):
            if name.endswith(".sticks"):
                with open(os.path.join(folder, name)) as file:
                    text = file.read()
                yield name, text, TECH2 if re.search(r"(?m)^buried ", text) else TECH
    for number in range(count):
        rng = random.Random("%d %d" % (seed, number))
        yield "design %d" % number, fuzz_texts.made_design(rng).decode(), rng.choice([TECH, TECH2])


def main():
    seed, count = (int(it) for it in (sys.argv[2:4] + ["1", "0"][len(sys.argv[2:4]):]))
    tried = placed = bad = 0
    with tempfile.TemporaryDirectory() as folder:
        for name, text, tech in designs(seed, count):
            wrong, laid_out = faults(folder, text, tech)
            tried, placed, bad = tried + 1, placed + laid_out, bad + bool(wrong)
            if wrong:
                print("%s, %s:\n%s\n%s" % (name, os.path.basename(tech), text, "\n".join(wrong)), flush=True)
    print("%d designs, %d laid out, %d wrong" % (tried, placed, bad))
    return 1 if bad else 0


if __name__ == "__main__":
    if sys.argv[1:2] in (["--help"], ["-h"]):
        print(__doc__.strip())
        sys.exit()
    sys.exit(main())
