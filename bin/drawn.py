"""The boxes of an inlined cell by its variables, its nets, and the rules between them (docs/FORMATS.md, What is drawn).

Lengths are in u. An end of a box is a variable and how far it lies past it: a variable is "0" for the lower border, "|"
for the upper one, the name of a node for its centre, and `#K` for the cross coordinate of wire K. Axis 0 is x, axis 1
is y.
"""
import tomllib
from dataclasses import dataclass

from design import LAYERS
from program import Refused

# The rules: the classes of two boxes, the key of their spacing, whether one net frees them, and how they are told.
RULES = [
    ("M", "M", "spacing.metal", True, "metal and metal of another net"),
    ("P", "P", "spacing.poly", True, "poly and poly of another net"),
    ("Dc", "Dc", "spacing.diffusion", True, "diffusion and diffusion of another net"),
    ("P", "Dm", "spacing.poly_diffusion", False, "poly and diffusion that make no transistor, whatever their nets"),
    ("C", "C", "spacing.cut", False, "a contact cut and another one"),
    ("C", "G", "spacing.cut_channel", False, "a contact cut and the channel of a transistor"),
    ("I", "G", "spacing.implant_channel", False, "an implant and the channel of another transistor"),
    ("B", "G", "spacing.buried_channel", False, "the window of a buried contact and the channel of a transistor"),
]
NAMES = {"M": "metal", "P": "poly", "Dm": "diffusion", "Dc": "diffusion", "C": "cut", "I": "implant", "G": "channel",
         "B": "buried window"}
CLASS = {"metal": "M", "poly": "P", "diff": "D"}


@dataclass
class Item:
    """A box of a part: its class, the part's name, its net, its ends on both axes, and the buried contacts at which it
    stands.
    """

    kind: str
    owner: str
    net: int
    ends: tuple
    at: frozenset = frozenset()


class Technology:
    """The numbers of a technology, by their dotted keys."""

    def __init__(self, text):
        try:
            tables = tomllib.loads(text.removeprefix("\ufeff"))
        except ValueError as it:
            raise Refused(f"the technology is not read: {it}") from it
        self.numbers = {}
        for key, value in tables.items():
            inner = value.items() if isinstance(value, dict) else []
            self.numbers.update({f"{key}.{name}": number for name, number in inner} if isinstance(value, dict)
                                else {key: value})

    def __getitem__(self, key):
        value = self.numbers.get(key, 0)
        return value if isinstance(value, int) else 0

    @property
    def pad(self):
        return self["cut.size"] + 2 * self["cut.enclosure"]

    @property
    def buried_pad(self):
        return max(self["width.diffusion"], self["width.poly"])

    def width(self, layer):
        """The least width of a layer, by its word in a design."""
        return self[f"width.{LAYERS[layer]}"]

    def rule(self, a, b):
        """The rule between boxes of two classes, if there is one."""
        return next((it for it in RULES if it[:2] in ((a, b), (b, a))
                     and (it[2] != "spacing.buried_channel" or self["version"] == 2)), None)

    def margin(self, kind):
        """How far a box of a class keeps off a border: the widest spacing of its rules, and the key of that."""
        keys = [it[2] for it in RULES if kind in it[:2] and (it[2] != "spacing.buried_channel" or self["version"] == 2)]
        key = max(keys, key=lambda it: self[it])
        return self[key], key

    def widest(self):
        return max(self[it[2]] for it in RULES)


def direction(wire, inlined):
    """The axis along which a wire runs, and its low and its high end, each by name."""
    parts = [inlined.part(it) for it in wire.ends]
    sides = [it.line.words[2] if it.form == "port" else "" for it in parts]
    along = (0 if {"left", "right"} & set(sides) else 1 if {"bottom", "top"} & set(sides)
             else int(parts[0].column == parts[1].column))
    place = (lambda k: -1 if sides[k] in ("left", "bottom") else 1 << 20 if sides[k]
             else (parts[k].column, parts[k].row)[along])
    low, high = sorted((0, 1), key=place)
    return along, wire.ends[low], wire.ends[high]


def cross(wire, inlined):
    """The column or the row in which a wire runs."""
    along = direction(wire, inlined)[0]
    for part in map(inlined.part, wire.ends):
        if part.form != "port":
            return (part.column, part.row)[1 - along]
    return inlined.part(wire.ends[0]).number_at(4)


def sizes(node, tech):
    """The half extents of a transistor's channel on x and y."""
    wide, long = node.number_at(6) / 2, node.number_at(7) / 2
    return (wide, long) if node.line.words[3] == "h" else (long, wide)


class Drawn:
    """The items of an inlined cell under a technology."""

    def __init__(self, inlined, tech):
        self.inlined, self.tech, self.items = inlined, tech, []
        self._nets()
        for node in inlined.nodes.values():
            self._node(node)
        for wire in inlined.wires:
            self._wire(wire)

    # ---- nets

    def _piece(self, wire, name):
        """The part of a net at which a wire ends."""
        node = self.inlined.nodes.get(name)
        if not node or node.form != "fet":
            return name
        if wire.layer == "poly":
            return f"{name} gate"
        return f"{name} low" if direction(wire, self.inlined)[2] == name else f"{name} high"

    def _nets(self):
        self.to = {}
        for wire in self.inlined.wires:
            for name in wire.ends:
                self.to[self._root(self._piece(wire, name))] = self._root(wire.name)

    def _root(self, piece):
        while piece in self.to and self.to[piece] != piece:
            piece = self.to[piece]
        return piece

    def net(self, name, layer=""):
        return self._root(name + (f" {layer}" if layer else ""))

    # ---- items

    def _add(self, kind, part, net, ends, at=()):
        self.items.append(Item(kind, part.name, net, ends, frozenset(at)))

    def _square(self, kind, node, net, half_x, half_y, at=()):
        name = node.name
        self._add(kind, node, net, (((name, -half_x), (name, half_x)), ((name, -half_y), (name, half_y))), at)

    def _node(self, node):
        tech, net = self.tech, self.net(node.name)
        if node.form == "joint":
            half = (node.number_at(5) or tech.width(node.layer)) / 2
            for kind in ("Dm", "Dc") if node.layer == "diff" else (CLASS[node.layer],):
                self._square(kind, node, net, half, half)
        elif node.form == "contact":
            half, cut = tech.pad / 2, tech["cut.size"] / 2
            for kind in ("M", "C", *(("Dm", "Dc") if node.layer == "diff" else ("P",))):
                self._square(kind, node, net, *[cut if kind == "C" else half] * 2)
        elif node.form == "buried":
            half = tech.buried_pad / 2
            for kind in ("P", "Dm", "Dc", "B"):
                self._square(kind, node, net, *[half + (kind == "B") * tech["extension.buried"]] * 2, (node.name,))
        else:
            self._fet(node)

    def _fet(self, node):
        tech, half = self.tech, sizes(node, self.tech)
        gate, low, high = (self.net(node.name, it) for it in ("gate", "low", "high"))
        along = 0 if node.line.words[3] == "h" else 1  # the axis along which the gate runs
        past = lambda key, *axes: [half[k] + tech[key] * (k in axes) for k in (0, 1)]
        self._square("P", node, gate, *past("extension.poly", along))
        self._square("Dm", node, low, *past("extension.diffusion", 1 - along))
        reach = past("extension.diffusion", 1 - along)[1 - along]
        for net, ends in ((low, (-reach, -half[1 - along])), (high, (half[1 - along], reach))):
            across = ((node.name, ends[0]), (node.name, ends[1]))
            beside = ((node.name, -half[along]), (node.name, half[along]))
            self._add("Dc", node, net, (across, beside) if along == 1 else (beside, across))
        self._square("G", node, gate, *half)
        if node.line.words[2] == "dep":
            self._square("I", node, gate, *past("extension.implant", 0, 1))

    def _end(self, name, along, half, sign):
        """Where a wire ends at a terminal: the low end has the sign -1."""
        part = self.inlined.part(name)
        if part.form == "port":
            return ("0", 0) if sign < 0 else ("|", 0)
        if part.form == "fet":
            return name, -sign * (sizes(part, self.tech)[along] + self.tech["spacing.poly_diffusion"])
        return name, sign * half

    def width(self, wire):
        return wire.number_at(4) or self.tech.width(wire.layer)

    def _wire(self, wire):
        along, low, high = direction(wire, self.inlined)
        half = self.width(wire) / 2
        run = self._end(low, along, half, -1), self._end(high, along, half, 1)
        side = (wire.name, -half), (wire.name, half)
        at = [it for it in wire.ends if it in self.inlined.nodes and self.inlined.nodes[it].form == "buried"]
        for kind in ("Dm", "Dc") if wire.layer == "diff" else (CLASS[wire.layer],):
            self._add(kind, wire, self.net(wire.name), (run, side) if along == 0 else (side, run), at)

    # ---- rules

    def bound(self, a, b):
        """The rule that two items have to keep, or None."""
        rule = self.tech.rule(a.kind, b.kind)
        if (not rule or a.owner == b.owner or rule[3] and a.net == b.net or {a.kind, b.kind} == {"P", "Dm"}
            and a.at & b.at):
            return None
        return rule

    def of(self, name):
        return [it for it in self.items if it.owner == name]

    def start(self):
        """Where each variable lies as drawn, on x and on y."""
        ends = [end for it in self.items if it.owner in self.inlined.nodes for both in it.ends for end in both]
        halves = [abs(off) for _, off in ends]
        halves += [self.width(it) / 2 for it in self.inlined.wires]
        pitch = 2 * max(halves, default=0) + self.tech.widest()
        values = []
        for axis in (0, 1):
            at = {name: (it.column, it.row)[axis] for name, it in self.inlined.nodes.items()}
            at |= {it.name: cross(it, self.inlined) for it in self.inlined.wires
                   if direction(it, self.inlined)[0] != axis}
            sides = ("bottom", "top") if axis == 0 else ("left", "right")
            ports = [it.number_at(4) for it in self.inlined.ports.values() if it.line.words[2] in sides]
            most = max([(it.column, it.row)[axis] for it in self.inlined.nodes.values()] + ports, default=0)
            values.append({name: pitch * (it + 1) for name, it in at.items()} | {"0": 0, "|": pitch * (most + 2)})
        return values

    def box(self, item, values):
        """The left, right, low and high side of an item where its variables lie there."""
        return [values[axis][name] + off for axis in (0, 1) for name, off in item.ends[axis]]

    def clashes(self, a, b, values=None):
        """The rules that the items of two parts break as drawn: the rule, both items, and how far apart they lie."""
        values = values or self.start()
        for i in self.of(a):
            for j in self.of(b):
                rule = self.bound(i, j)
                gap = rule and gap_of(self.box(i, values), self.box(j, values))
                if rule and gap < self.tech[rule[2]]:
                    yield rule, i, j, gap

    def spaces(self, low, high, axis, length):
        """The items that ask that one variable lies just so far past another: the rule and both items."""
        ends = lambda side, name: [(it, it.ends[axis][side][1]) for it in self.items if it.ends[axis][side][0] == name]
        first, second = ends(1, low), ends(0, high)
        for i, high_off in first:
            for j, low_off in second:
                rule = self.bound(i, j)
                if rule and high_off + self.tech[rule[2]] - low_off == length:
                    yield rule, i, j

    def faces(self, rule, i, j, axis, values):
        """Whether a pass on an axis asks that j keeps its spacing past i, where the variables lie there."""
        a, b = self.box(i, values), self.box(j, values)
        k, other, need = 2 * axis, 2 - 2 * axis, self.tech[rule[2]]
        return max(a[other] - b[other + 1], b[other] - a[other + 1]) < need and a[k + 1] + need <= b[k]

    def margins(self, name, axis, is_high, length):
        """The items that ask that a variable lies just so far from a border."""
        for it in self.items:
            variable, off = it.ends[axis][1 if is_high else 0]
            if (variable == name and self.tech.margin(it.kind)[0]
                + abs(off) * (1 if (off > 0) == is_high or off == 0 else -1) == length):
                yield it


def gap_of(a, b):
    """How far two boxes lie apart; below 0 they overlap."""
    return max(a[0] - b[1], b[0] - a[1], a[2] - b[3], b[2] - a[3])
