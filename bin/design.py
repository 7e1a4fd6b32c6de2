"""Reads a design in sticks line by line, and inlines its cells, with the lines that each part comes from.

A text is read as far as it goes: the program judges it, and what is no line of a cell or a grid is kept beside. Numbers
of wires are those of the inlined cell (docs/FORMATS.md, The inlined cell): each use is replaced, in place, by the nodes
and wires of the cell that it names, shifted, with its name and a dot before their names.
"""
import re
from dataclasses import dataclass, field

from program import Refused

NODES = ("joint", "contact", "buried", "fet")
LAYERS = {"diff": "diffusion", "poly": "poly", "metal": "metal"}
# the word that is a column; the row stands after it
PLACE = {"joint": 3, "contact": 3, "buried": 2, "fet": 4, "use": 3}
MOST_DEEP, MOST_PARTS = 16, 200_000


@dataclass
class Line:
    """A line of a text: its number from 1, its words, and what it is without comment and outer blanks."""

    number: int
    words: list
    text: str


@dataclass
class CellText:
    """A cell as it stands: its name, its `cell` line, the lines between, and its `end` line, if it has one."""

    name: str
    begin: Line
    lines: list = field(default_factory=list)
    end: Line = None

    def ports(self):
        return [it for it in self.lines if it.words[0] == "port" and len(it.words) == 5]


@dataclass
class GridText:
    """A grid as it stands: its name, empty in version 1, its `grid` line, its rows, and its `end` line, if it has one.
    """

    name: str
    begin: Line
    rows: list = field(default_factory=list)
    end: Line = None


@dataclass
class Part:
    """A node, a port or a wire of an inlined cell, with its line and the `use` lines that it comes by, the outermost
    first.

    A wire is `#` and its number; what it joins is in `ends`, by full names.
    """

    name: str
    line: Line
    uses: tuple = ()
    column: int = 0
    row: int = 0
    ends: tuple = ()
    number: int = -1

    @property
    def form(self):
        return self.line.words[0]

    @property
    def layer(self):
        """The word for the layer of a joint or a wire, for the lower layer of a contact, and for that of a port."""
        return self.line.words[{"wire": 1, "port": 3}.get(self.form, 2)]

    def number_at(self, place):
        """The number at a place of the line's words, or None where the line has none there."""
        words = self.line.words
        return int(words[place]) if len(words) > place else None


@dataclass
class Inlined:
    """A cell, its uses replaced: its nodes and ports by their names, its wires by their numbers, and its limits."""

    cell: CellText
    nodes: dict = field(default_factory=dict)
    ports: dict = field(default_factory=dict)
    wires: list = field(default_factory=list)
    limits: list = field(default_factory=list)

    def part(self, name):
        """The part of this name, as the program writes it: `#3` is a wire."""
        if name.startswith("#"):
            return self.wires[int(name[1:])] if int(name[1:]) < len(self.wires) else None
        return self.nodes.get(name) or self.ports.get(name)


def words_of(text):
    """The words of a line, without its comment; blanks are spaces and tabs."""
    return [it for it in re.split(r"[ \t]+", text.split("#", 1)[0].removesuffix("\r")) if it]


def lines_of(text):
    """All lines of a text, those without words too."""
    parts = text.split("\n")
    if parts and not parts[-1]:
        parts.pop()
    return [Line(at, words_of(it), it.split("#", 1)[0].strip(" \t\r")) for at, it in enumerate(parts, 1)]


class Design:
    """The cells and grids of a text, in order, and its other lines."""

    def __init__(self, text):
        self.lines = [it for it in lines_of(text) if it.words]
        self.cells, self.grids, self.others = [], [], []
        here = None
        for line in self.lines:
            form = line.words[0]
            if form == "cell" and not here:
                here = CellText(line.words[1] if len(line.words) > 1 else "", line)
                self.cells.append(here)
            elif form == "grid" and not here:
                here = GridText(line.words[1] if len(line.words) > 1 else "", line)
                self.grids.append(here)
            elif form == "end" and here:
                here.end, here = line, None
            elif isinstance(here, CellText):
                here.lines.append(line)
            elif here:
                here.rows.append(line)
            else:
                self.others.append(line)

    def line(self, number):
        """The line of this number, if it has words."""
        return next((it for it in self.lines if it.number == number), None)

    def cell(self, name):
        return next((it for it in self.cells if it.name == name), None)

    def cell_at(self, number):
        """The cell in which the line of this number stands, its first and last line included."""
        for cell in self.cells:
            end = cell.end.number if cell.end else 1 << 60
            if cell.begin.number <= number <= end:
                return cell
        return None

    def masters(self):
        """The names of the cells that the grids name, each once, at its first place."""
        return list(dict.fromkeys(name for grid in self.grids for row in grid.rows for name in row.words[1:]))

    def inlined(self, name):
        """The cell of this name, inlined. Only for a design in whose names and sizes the program found no fault."""
        cell = self.cell(name)
        if not cell:
            raise Refused(f"the design has no cell '{name}'")
        made = Inlined(cell)
        try:
            self._put(made, cell, "", (0, 0), ())
        except (IndexError, ValueError) as it:
            raise Refused(f"a line of cell '{name}' is cut") from it
        return made

    def _put(self, made, cell, path, shift, uses):
        if len(uses) > MOST_DEEP or len(made.nodes) + len(made.wires) > MOST_PARTS:
            raise Refused(f"cell '{made.cell.name}' is too large, its uses replaced")
        for line in cell.lines:
            form, words = line.words[0], line.words
            name = path + words[1]
            if form in PLACE:
                at = PLACE[form]
                column, row = int(words[at]) + shift[0], int(words[at + 1]) + shift[1]
            if form == "use":
                inner = self.cell(words[2])
                if not inner:
                    raise Refused(f"the design has no cell '{words[2]}'")
                self._put(made, inner, f"{name}.", (column, row), (*uses, line))
            elif form in NODES:
                made.nodes[name] = Part(name, line, uses, column, row)
            elif form == "port":
                made.ports[name] = Part(name, line, uses)
            elif form == "wire":
                number = len(made.wires)
                made.wires.append(Part(f"#{number}", line, uses, ends=(path + words[2], path + words[3]),
                                       number=number))
            elif form == "limit":
                made.limits.append(Part(f"limit {len(made.limits)}", line, uses,
                                        ends=(path + words[2], path + words[3])))
