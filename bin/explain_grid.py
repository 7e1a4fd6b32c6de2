"""What is wrong with the rows of a grid, and with the lines of a script."""
import re

from design import Design, lines_of
from explain_design import ADD, DROP, JOG, Faults, bad_words, misfit
from explain_words import near, repair

ORDER = {"diff": 0, "poly": 1, "metal": 2}


def ports_of(cell, side, tech):
    """The ports of a side of a cell, in order: each line with its layer and the width of its wire."""
    found = []
    for line in cell.ports():
        if line.words[2] == side:
            layer = line.words[3]
            wire = next((it for it in cell.lines if it.words[0] == "wire" and line.words[1] in it.words[2:4]), None)
            width = int(wire.words[4]) if wire and len(wire.words) > 4 else tech.width(layer)
            found.append((line, wire, layer, width))
    return sorted(found, key=lambda it: (int(it[0].words[4]), ORDER[it[2]]))


class Grid:
    """A grid of a design with its fault."""

    def __init__(self, path, text, name, tech):
        self.path, self.design, self.tech = path, Design(text), tech
        self.grid = next((it for it in self.design.grids if it.name == name), self.design.grids[0])

    def at(self, line):
        return f"{self.path}:{line.number}: {line.text}"

    def explain(self, kind, numbers):
        yield from getattr(self, kind)(*numbers)
        yield from repair(kind)

    def Empty(self):
        yield self.at(self.grid.begin)
        yield "the grid has no row: at least one line 'row NAME ..' stands before its 'end'"

    def UnknownCell(self, row, column):
        line = self.grid.rows[int(row)]
        name = line.words[int(column) + 1]
        yield self.at(line)
        yield (f"no cell has the name '{name}', word {int(column) + 2} of the line (row {row}, column "
               f"{column}){near(name, [it.name for it in self.design.cells])}")

    def RaggedRow(self, row):
        first, line = self.grid.rows[0], self.grid.rows[int(row)]
        yield self.at(first)
        yield self.at(line)
        yield (f"names in the first row: {len(first.words) - 1}, in row {row}: {len(line.words) - 1}; all rows have as "
               "many")

    def PortMismatch(self, row, column, side, index):
        row, column, index = int(row), int(column), int(index)
        beside = (row, column + 1) if side == "right" else (row + 1, column)
        ends = [(self.grid.rows[r], self.grid.rows[r].words[c + 1]) for r, c in ((row, column), beside)]
        sides = (side, "left" if side == "right" else "bottom")
        both = [ports_of(self.design.cell(name), where, self.tech) for (_, name), where in zip(ends, sides)]
        for line in dict.fromkeys(it.number for it, _ in ends):
            yield self.at(self.design.line(line))
        place = "to the right of" if side == "right" else "above"
        yield (f"'{ends[1][1]}' (row {beside[0]}, column {beside[1]}) stands {place} '{ends[0][1]}' (row {row}, column "
               f"{column}); port {index} of the border, counted from 0, does not fit:")
        for (_, name), where, ports in zip(ends, sides, both):
            if index < len(ports):
                line, wire, layer, width = ports[index]
                yield (f"{self.at(line)}   port '{line.words[1]}' of '{name}', {layer}, {width} u wide"
                       + (f" by line {wire.number}: {wire.text}" if wire else ""))
            else:
                yield (f"'{name}' has no port {index} on its {where} side; it has "
                       f"{', '.join(it[0].words[1] for it in ports) or 'none'} there")
        if index < min(map(len, both)):
            (_, _, one, wide), (_, _, other, high) = (it[index] for it in both)
            told = ([f"the layers differ, {one} and {other}"] * (one != other)
                    + [f"the widths differ, {wide} and {high} u"] * (wide != high))
            yield ("; ".join(told) if told
                   else "the ports of a side are in order of place, then layer: diffusion, poly, metal")


def script_fault(path, text, number, command):
    """What is wrong with a line of a script that is no jog or no edit."""
    raw = (text.split("\n") + [""] * number)[number - 1]
    yield f"{path}:{number}: {raw.strip()}"
    words = lines_of(raw)[0].words if raw.strip() else []
    bad = list(bad_words(raw))
    forms = {"jog": JOG} if command == "jog" else {"add": ADD, "drop": DROP}
    forms = {it: f"{it} {form}".replace("WAY", "left or right") for it, form in forms.items()}
    if bad:
        yield bad[0]
    elif words[0] not in forms:
        other = (" is a line of the other command's script" if words[0] in ("jog", "add", "drop")
                 else " begins no line of it")
        yield f"'{words[0]}'{other}{near(words[0], forms)}"
    else:
        yield misfit(words[1:], {"jog": JOG, "add": ADD, "drop": DROP}[words[0]]).replace("its WAY", "left or right")
    yield f"a line of a script for {command} is: {' or '.join(forms.values())}"


def steps(path, text, output, design, design_path, tech):
    """What the lines that `edit` wrote tell of the lines of its script: those that are refused or have no layout."""
    lines = [it for it in lines_of(text) if it.words]
    limits = {it.name: [line for line in it.lines if line.words[0] == "limit"] for it in design.cells}
    masters, used = design.masters(), {line.words[2] for cell in design.cells for line in cell.lines
                                       if line.words[0] == "use"}
    for number, told in re.findall(r"^step (\d+) (.*)$", output, re.M):
        line = lines[int(number)]
        name = line.words[1]
        is_add = line.words[0] == "add"
        if told == "refused":
            yield f"{path}:{line.number}: {line.text}"
            if not design.cell(name):
                yield f"no cell has the name '{name}'{near(name, limits)}"
            elif name not in masters:
                yield f"no grid names the cell '{name}'"
            elif name in used:
                yield f"the cell '{name}' is used by another cell: only a cell that none uses is edited"
            elif not is_add:
                yield (f"'{name}' has no limit {line.words[2]}: they are counted from 0, and it has "
                       f"{len(limits[name]) or 'none'} here")
            else:
                yield from limit_fault(design, design_path, tech, name, line)
            continue
        if is_add:
            limits[name].append(line)
        else:
            del limits[name][int(line.words[2])]
        if told.startswith("code"):
            code = int(told.split()[1])
            why = {11: "with it the inequalities of a pass have no solution",
                   9: "with it there is too much of something", 5: "with it the design's text is too long"}
            yield f"{path}:{line.number}: {line.text}"
            yield (f"{why.get(code, f'with it compact ends with {code}')}; the design goes on with this line, and a "
                   "later one may mend it")
            if code == 11:
                yield (f"write the limit into {design_path} to see the cycle, or drop it with: drop {name} "
                       f"{len(limits[name]) - 1}" if is_add else "a limit that came before does not fit")


def limit_fault(design, design_path, tech, name, line):
    """The fault of the limit that a line would add, as that of a line at the end of the cell."""
    cell = design.cell(name)
    faults = Faults(design_path, "", 1, tech)
    faults.design, faults.cell, faults.before, faults.words = design, cell, cell.lines, ["limit", *line.words[2:]]
    faults.named = {it.words[1]: it for it in cell.lines if it.words[0] not in ("wire", "limit")}
    yield from list(faults.UnknownName()) or list(faults.BadLimit())


def jogs(path, text, told):
    """What is to be said of the jogs that were not kept."""
    lines = [it for it in lines_of(text) if it.words]
    for number, cell in re.findall(r"^jog (\d+) (\S+) rejected$", told, re.M):
        line = lines[int(number)]
        yield f"{path}:{line.number}: {line.text}"
        yield (f"not kept: it made '{cell}' no narrower or another cell wider, or there is no such jog "
               "(docs/FORMATS.md, A script of jogs)")
