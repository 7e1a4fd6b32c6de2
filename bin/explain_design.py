"""What is wrong with a line of a design, of a grid, or of a script, and which word of it."""
import re

from design import LAYERS, NODES, PLACE, Design, words_of
from explain_words import CIF, TECHNOLOGY, kind_of, near, repair

MOST_PLACE, MOST_SIZE, LARGEST = 4095, 4096, 1_000_000
NAME = r"[A-Za-z][A-Za-z0-9_]{0,31}"
PATH, NUMBER, COUNT = rf"{NAME}(\.{NAME})*", r"-?[0-9]+", r"-?0+|[0-9]+"
WORDS = {
    "NAME": (NAME, "a name"), "CELL": (NAME, "the name of a cell"),
    "A": (PATH, "a name or a path"), "B": (PATH, "a name or a path"),
    "LAYER": ("diff|poly|metal", "diff, poly or metal"), "LOWER": ("diff|poly", "diff or poly"),
    "KIND": ("enh|dep", "enh or dep"), "DIR": ("h|v", "h or v"), "AXIS": ("x|y", "x or y"),
    "SIDE": ("left|right|bottom|top", "left, right, bottom or top"),
    "OP": ("<=|>=", "<= or >="), "N": (NUMBER, "a number"), "WAY": ("left|right", "left or right"),
}
FORMS = {
    "joint": "NAME LAYER COL ROW [WIDTH]", "contact": "NAME LOWER COL ROW", "buried": "NAME COL ROW",
    "fet": "NAME KIND DIR COL ROW W L", "port": "NAME SIDE LAYER PLACE", "use": "NAME CELL COL ROW",
    "wire": "LAYER A B [WIDTH]", "limit": "AXIS A B OP N", "cell": "NAME",
    "end": "", "grid": "[NAME]", "row": "NAME ..", "sticks": "VERSION",
}
IN_CELL = ("joint", "contact", "buried", "fet", "port", "use", "wire", "limit")
JOG, ADD, DROP = "CELL K R WAY", "CELL AXIS A B OP N", "CELL K"


def misfit(words, form):
    """What is wrong with the words behind a keyword, by its form; nothing where they fit. It is the first such word."""
    wanted = form.split()
    if wanted[-1:] == [".."]:
        wanted = [wanted[0]] * max(1, len(words))
    for at, what in enumerate(wanted):
        is_free = what.startswith("[")
        what = what.strip("[]")
        fits, told = WORDS.get(what, (COUNT, "a number that is not negative"))
        if at >= len(words):
            return "" if is_free else f"its {what} is missing: {told}"
        if not re.fullmatch(fits, words[at]):
            return (f"'{words[at]}' stands where its {what} is asked for: "
                    f"{told}{near(words[at], fits.split('|')) if '|' in fits else ''}")
    return f"'{words[len(wanted)]}' is one word too many" if len(words) > len(wanted) else ""


def bad_words(raw):
    """What is wrong with the runs of a line, each told; the first is what the program stops at."""
    for found in re.finditer(r"[^ \t]+", raw.split("#", 1)[0].removesuffix("\r")):
        word, at = found[0], f"at column {found.start() + 1}"
        if re.fullmatch(NUMBER, word):
            if abs(int(word)) > LARGEST:
                yield f"{at}: the number {word} is more than {LARGEST:,} away from 0"
        elif word.startswith("\ufeff"):
            yield f"{at}: a byte order mark stands in front of '{word[1:]}': save the text as UTF-8 without one"
        elif not re.fullmatch(rf"{PATH}|<=|>=", word):
            yield f"{at}: '{word}' is no word of a design: {why_no_word(word)}"


def why_no_word(word):
    long = [it for it in word.split(".") if len(it) > 32]
    if long:
        return f"a name has at most 32 characters, this one has {len(long[0])}"
    strange = re.search(r"[^A-Za-z0-9_.]", word.lstrip("-"))
    if re.fullmatch(r"-?[0-9]+\.[0-9]+", word):
        return "numbers are whole, without a point"
    if re.fullmatch(r"-?[0-9]+[A-Za-z_]\w*", word, re.ASCII):
        return "a number has no letters, and a name begins with a letter"
    if word in ("=", "==", "<", ">", "=<", "=>"):
        return "a limit has <= or >="
    if strange and not strange[0].isascii():
        return f"the character {strange[0]!r} is no ASCII"
    if strange:
        return f"the character {strange[0]!r} stands in no word" + ("; leave it out" if strange[0] in ",;:()" else "")
    return "a name begins with a letter, and names of a path are joined by single dots"


class Faults:
    """The faults of a design at a line of it, under a technology, if there is one."""

    def __init__(self, path, text, number, tech=None):
        self.path, self.text, self.number, self.tech = path, text, number, tech
        self.design, self.line = Design(text), None
        self.raw = (text.split("\n") + [""] * number)[number - 1]
        self.line = self.design.line(number)
        self.words = self.line.words if self.line else words_of(self.raw)
        self.cell = self.design.cell_at(number)
        self.before = [it for it in self.cell.lines if it.number < number] if self.cell else []
        self.named = {it.words[1]: it for it in self.before if it.words[0] in (*NODES, "port", "use")
                      and len(it.words) > 1}

    def at(self, line):
        return f"{self.path}:{line.number}: {line.text}"

    def explain(self, kind):
        what = kind_of(self.text)
        if kind in ("BadByte", "BadLine", "Unended") and what in (CIF, TECHNOLOGY):
            use = "check, breaks and extract read CIF" if what == CIF else "it belongs behind --tech"
            yield f"{self.path} is no design: it looks like {what}; {use}"
            return
        yield f"{self.path}:{self.number}: {self.raw.strip()}"
        yield from getattr(self, {"BadByte": "words_told", "NumberTooLarge": "words_told"}.get(kind, kind))()
        yield from repair(kind) if kind != "BadLine" else ()

    # ---- the language

    def words_told(self):
        yield from list(bad_words(self.raw))[:3] or ["a byte in it is none of a design"]

    def BadLine(self):
        form, rest = self.words[0], self.words[1:]
        if form not in FORMS:
            yield f"'{form}' begins no line{near(form, FORMS)}"
            return
        bad = misfit(rest, FORMS[form])
        yield f"{bad}; the form is '{f'{form} {FORMS[form]}'.strip()}'" if bad else self.place(form)

    def place(self, form):
        """Why a line whose words fit may not stand where it stands."""
        first = self.design.lines[0]
        if first.words[0] != "sticks" and self.line is first:
            return "a design begins with the line 'sticks 1' or 'sticks 2'"
        if form == "sticks":
            return "the version stands in the first line alone" if self.line is not first else "the version is 1 or 2"
        version = first.words[1] if len(first.words) > 1 else ""
        grid = next((it for it in self.design.grids
                     if it.begin.number < self.number <= (it.end.number if it.end else 1 << 60)), None)
        if self.cell and self.cell.begin.number < self.number:
            return (f"a '{form}' line may not stand in a cell: the 'end' of '{self.cell.begin.text}' (line "
                    f"{self.cell.begin.number}) is missing above it")
        if grid:
            return (f"only 'row' lines stand in a grid, and its 'end' closes it: '{grid.begin.text}' is at line "
                    f"{grid.begin.number}")
        if form in IN_CELL:
            return f"a '{form}' line stands in a cell, between 'cell NAME' and 'end'; here no cell is open"
        if form == "row":
            return "a 'row' line stands in a grid, between 'grid' and 'end'; here no grid is open"
        if form == "end":
            return "here no cell and no grid is open, so nothing ends"
        if form == "grid" and len(self.words) == 1 and version.lstrip("0") == "2":
            return "in version 2 each grid has a name: 'grid NAME'"
        if form == "grid" and len(self.words) == 2 and version.lstrip("0") == "1":
            return "in version 1 the grid has no name: 'grid' alone, or 'sticks 2' in the first line"
        if form == "cell":
            return (f"cells stand before the grids; '{self.design.grids[0].begin.text}' is at line "
                    f"{self.design.grids[0].begin.number}")
        return "behind the grid of version 1 nothing more stands; version 2 has several, each with a name"

    def Unended(self):
        open_ones = [it for it in [*self.design.cells, *self.design.grids] if not it.end]
        if open_ones:
            begin = open_ones[0].begin
            yield f"the text ends here, and '{begin.text}' at line {begin.number} has no 'end'"
            inner = [it for it in (open_ones[0].lines if begin.words[0] == "cell" else open_ones[0].rows)
                     if it.words[0] in ("cell", "grid")]
            yield from (f"perhaps it is missing above line {it.number}: {it.text}" for it in inner[:1])
        elif not self.design.lines:
            yield "the text has no line: a design is 'sticks 1', its cells, and a grid"
        else:
            yield "the text ends here, and it has no grid: 'grid', rows of cells, 'end'"

    def TooManyCells(self):
        yield f"this is cell number 257; a design has at most 256, this one has {len(self.design.cells)}"

    # ---- names

    def RepeatedName(self):
        name = self.words[1]
        if self.words[0] in ("cell", "grid"):
            others = [it.begin for it in (self.design.cells if self.words[0] == "cell" else self.design.grids)
                      if it.name == name]
        else:
            others = [self.named[name]] if name in self.named else []
        yield f"the name '{name}' is given already" + (f": {self.at(others[0])}" if others else "")

    def paths(self):
        return self.words[2:4]

    def UnknownName(self):
        if self.words[0] == "use":
            yield from self.unknown_cell(self.words[2],
                                         [it for it in self.design.cells if it.begin.number < self.cell.begin.number])
            return
        for path in self.paths():
            told = self.unknown(path)
            if told:
                yield told
                return

    def unknown_cell(self, name, cells):
        later = self.design.cell(name)
        hint = f": it stands below, at line {later.begin.number}" if later else near(name, [it.name for it in cells])
        yield f"no cell above has the name '{name}'{hint}"

    def unknown(self, path):
        """Which name of a path is not known, or nothing."""
        named, cell, gone = self.named, self.cell, ""
        for name in path.split("."):
            line = named.get(name)
            if not line:
                later = next((it for it in cell.lines if len(it.words) > 1 and it.words[0] in (*NODES, "port", "use")
                              and it.words[1] == name), None)
                hint = (f": it stands below, at line {later.number}" if later and cell is self.cell
                        else near(name, named))
                inside = f" in cell '{cell.name}', which '{gone}' copies" if gone else ""
                return (f"'{path}': there is no node, port or use '{name}' above{inside}{hint}" if not gone
                        else f"'{path}': there is no '{name}'{inside}{hint}")
            if line.words[0] != "use":
                return ""
            cell, gone = self.design.cell(line.words[2]) or self.cell, name
            named = {it.words[1]: it for it in cell.lines if it.words[0] in (*NODES, "port", "use")
                     and len(it.words) > 1}
        return ""

    def node(self, path):
        """The line at which a path ends, its column and its row, and the line that stops it, where it is no way to a
        node.
        """
        named, x, y, names, line = self.named, 0, 0, path.split("."), None
        for at, name in enumerate(names, 1):
            line = named.get(name)
            if not line or line.words[0] == "port":
                return line, 0, 0, line if at < len(names) else None
            place = PLACE[line.words[0]]
            x, y = x + int(line.words[place]), y + int(line.words[place + 1])
            if line.words[0] != "use":
                return line, x, y, line if at < len(names) else None
            cell = self.design.cell(line.words[2])
            named = ({it.words[1]: it for it in cell.lines if it.words[0] in (*NODES, "port", "use")
                      and len(it.words) > 1} if cell else {})
        return line, x, y, line

    def WrongTerminal(self):
        for path in self.paths():
            line, _, _, stop = self.node(path)
            if stop and stop.words[0] == "use" and path.split(".")[-1] == stop.words[1]:
                yield f"'{path}' is a whole copy: {self.at(stop)}"
                inner = self.design.cell(stop.words[2])
                names = [it.words[1] for it in inner.lines if it.words[0] in (*NODES, "use")] if inner else []
                told = ", ".join(f"{path}.{it}" for it in names[:6])
                yield f"name a node in it: {told}{' ..' if len(names) > 6 else ''}"
            elif stop:
                yield f"'{path}' goes through '{stop.words[1]}', which is no use: {self.at(stop)}"

    # ---- numbers

    def FarPlace(self):
        form = self.words[0]
        if form == "port":
            yield f"the place {self.words[4]} is past {MOST_PLACE}"
            return
        at = PLACE[form]
        for name, place in (("column", self.words[at]), ("row", self.words[at + 1])):
            if int(place) > MOST_PLACE:
                yield f"the {name} {place} is past {MOST_PLACE}"
        if form == "use" and int(self.words[3]) <= MOST_PLACE and int(self.words[4]) <= MOST_PLACE:
            yield (f"the copy is shifted by {self.words[3]} and {self.words[4]}: a node of '{self.words[2]}' would "
                   f"stand past column or row {MOST_PLACE}")

    def BadSize(self):
        form, words = self.words[0], self.words
        sizes = [("width", words[-1], "")]
        if form == "fet":
            sizes = [("W", words[6], "diffusion"), ("L", words[7], "poly")]
        for name, word, key in sizes:
            least = self.tech[f"width.{key}"] if key and self.tech else 0
            why = ("is odd" if int(word) % 2 else f"is past {MOST_SIZE}" if int(word) > MOST_SIZE else "is 0"
                   if int(word) == 0 else "")
            why = why or (f"is below width.{key}, which is {least} u" if int(word) < least else "")
            if why:
                yield f"the {name} {word} {why}; sizes are even, from 2 to {MOST_SIZE}"

    def width_told(self):
        """The layer's word, the width of a wire or a joint, and how it comes about."""
        at, layer = (5, self.words[2]) if self.words[0] == "joint" else (4, self.words[1])
        if len(self.words) > at:
            return layer, int(self.words[at]), f"the width {self.words[at]}"
        width = self.tech.width(layer) if self.tech else 0
        return layer, width, f"the width, which is that of {LAYERS[layer]} as none is given, {width} u,"

    def NarrowWire(self):
        layer, width, told = self.width_told()
        least = self.tech.width(layer) if self.tech else 0
        if width < least:
            yield f"{told} is below width.{LAYERS[layer]}, {least} u; leave it out, or give {least} or more"
            return
        for path in self.paths():
            line = self.node(path)[0]
            if line and line.words[0] == "buried":
                yield (f"{told} is not that of the pad of the buried contact '{path}', {self.tech.buried_pad} u: "
                       f"{self.at(line)}")
                yield f"a wire that ends there is exactly so wide: give {self.tech.buried_pad}"
                return

    def pad(self, line, layer):
        """The pad of a node for a wire of a layer, and what it is."""
        form, words = line.words[0], line.words
        if form == "joint":
            pad = int(words[5]) if len(words) > 5 else self.tech.width(words[2])
            return pad, "the joint's width"
        if form == "contact":
            return self.tech.pad, "the cut and twice its enclosure"
        if form == "fet":
            return int(words[7] if layer == "poly" else words[6]), "its L" if layer == "poly" else "its W"
        return self.tech.buried_pad, "the wider of the widths of diffusion and poly"

    def WideWire(self):
        layer, width, told = self.width_told()
        for path in self.paths():
            line = self.node(path)[0]
            if line and line.words[0] != "port" and self.tech and self.pad(line, layer)[0] < width:
                pad, what = self.pad(line, layer)
                yield f"{told} is more than the pad of '{path}', {pad} u ({what}): {self.at(line)}"

    def NoBuried(self):
        yield (f"'{self.words[0]} {self.words[1]}' is a buried contact, and the technology is of version "
               f"{self.tech['version'] if self.tech else 1}, which has none")
        yield "examples/nmos2.toml is one of version 2"

    # ---- wires, ports, copies and limits

    def ends(self):
        for path in self.paths():
            line, x, y, _ = self.node(path)
            if line:
                yield path, line, x, y

    def NotStraight(self):
        told = []
        for path, line, x, y in self.ends():
            is_port = line.words[0] == "port"
            told.append(f"'{path}' is at {line.words[2]} place {line.words[4]}" if is_port
                        else f"'{path}' is at column {x}, row {y}")
            yield f"{told[-1]}: {self.at(line)}"
        yield ("a wire joins two nodes of one column or one row, or a node and a port in line with it; put a joint "
               "where it turns")

    def WrongLayer(self):
        layer = self.words[1]
        takes = {"contact": lambda w: ("metal", w[2]), "fet": lambda w: ("poly", "diff"),
                 "buried": lambda w: ("poly", "diff"),
                 "joint": lambda w: (w[2],), "port": lambda w: (w[3],)}
        for path, line, _, _ in self.ends():
            layers = takes[line.words[0]](line.words)
            if layer not in layers:
                yield f"a wire of {layer} cannot end at '{path}', which takes {' and '.join(layers)}: {self.at(line)}"

    def WrongSide(self):
        layer, ends = self.words[1], list(self.ends())
        flat = any(line.words[0] == "port" and line.words[2] in ("left", "right") for _, line, _, _ in ends)
        nodes = [(x, y) for _, line, x, y in ends if line.words[0] != "port"]
        flat = flat or len(nodes) == 2 and nodes[0][1] == nodes[1][1]
        for path, line, _, _ in ends:
            if line.words[0] == "fet" and ((line.words[3] == "h") == flat) != (layer == "poly"):
                way, asked = ("sideways", "up or down") if flat else ("up or down", "sideways")
                yield (f"'{path}' has its gate {'across' if line.words[3] == 'h' else 'upwards'} ({line.words[3]}), so "
                       f"{layer} leaves it {asked}; this wire runs {way}: {self.at(line)}")
            elif line.words[0] == "buried":
                yield f"at the buried contact '{path}' poly and diffusion may not leave on one side: {self.at(line)}"

    def PortWires(self):
        if self.words[0] == "end":
            used = {path for it in self.before if it.words[0] == "wire" for path in it.words[2:4]}
            for line in self.before:
                if line.words[0] == "port" and line.words[1] not in used:
                    yield f"the port '{line.words[1]}' of cell '{self.cell.name}' has no wire: {self.at(line)}"
            return
        for path in self.paths():
            line = self.named.get(path)
            others = [it for it in self.before if it.words[0] == "wire" and path in it.words[2:4]]
            if line and line.words[0] == "port" and others:
                yield f"the port '{path}' has a wire already: {self.at(others[0])}"
                yield "a port has exactly one wire; a joint takes more"

    def UseCycle(self):
        yield (f"'{self.words[2]}' is the cell in which the line stands ({self.path}:{self.cell.begin.number}), and no "
               "cell has itself in it")

    def UsedPorts(self):
        inner = self.design.cell(self.words[2])
        ports = inner.ports() if inner else []
        yield (f"cell '{self.words[2]}' has ports, and a cell with ports cannot be used, only stand in grids: "
               f"{self.at(ports[0])}")

    def UseDepth(self):
        yield (f"by the copy of '{self.words[2]}' cell '{self.cell.name}' would be more than 16 deep; use the cells "
               "further down directly")

    def BadLimit(self):
        a, b = self.paths()
        if a == b:
            yield f"both ends are '{a}'; a limit is between two nodes"
        for path in dict.fromkeys((a, b)):
            line, _, _, stop = self.node(path)
            end = stop or line
            if end and end.words[0] in ("port", "use") or stop:
                what = {"port": "a port", "use": "a copy"}.get(end.words[0], "it goes through one")
                yield f"'{path}' is no node, {what}: {self.at(end)}"
