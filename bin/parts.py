"""Finds the parts of a design in its masks, for bin/picture.

A symbol has a box for each item of a layer, those of nodes and then those of wires, in the order of the design with its
uses replaced in place (docs/FORMATS.md, The masks), so the design alone tells which box is whose.
"""
from dataclasses import dataclass

from program import Refused

LAYERS = {"diff": "ND", "poly": "NP", "metal": "NM"}
CUT, IMPLANT, WINDOW = "NC", "NI", "NB"


@dataclass
class Places:
    """Where the parts of a cell are: the centres of nodes, by name, of wires, by number; ports with their sides."""

    nodes: dict
    wires: list
    ports: dict


def layers_of(part):
    """The layers of the boxes of a node or a wire, its centre's first."""
    try:
        if part.form in ("joint", "wire"):
            return [LAYERS[part.layer]]
        if part.form == "contact":
            return ["NM", LAYERS[part.layer], CUT]
        if part.form == "buried":
            return ["NP", "ND", WINDOW]
        return ["NP", "ND"] + [IMPLANT] * (part.line.words[2] == "dep")
    except (KeyError, IndexError) as it:
        raise Refused(f"the design's line {part.line.number} has no layer") from it


def centre(box):
    x, y, w, h = box
    return x + w / 2, y + h / 2


def places_of(design, symbol):
    """Where the parts of the cell that a symbol is named after are in that symbol."""
    cell = design.inlined(symbol.name)
    left = {layer: list(reversed(boxes)) for layer, boxes in symbol.boxes().items()}
    nodes, runs = {}, []
    try:
        for name, part in cell.nodes.items():
            nodes[name] = centre([left[layer].pop() for layer in layers_of(part)][0])
        for part in cell.wires:
            runs.append(left[layers_of(part)[0]].pop())
    except (KeyError, IndexError):
        left = {"": [0]}
    if any(left.values()):
        raise Refused(f"the masks of cell '{symbol.name}' are not those of the design")
    ports = {}
    for name, part in cell.ports.items():
        side = part.line.words[2]
        for box, wire in zip(runs, cell.wires):
            if name in wire.ends:
                (x, y), (first, low, wide, high) = centre(box), box
                ends = {"left": (first, y), "right": (first + wide, y), "bottom": (x, low), "top": (x, low + high)}
                ports[name] = side, ends.get(side, (x, y))
    return Places(nodes, [centre(it) for it in runs], ports)
