"""Reads masks in CIF 2.0, for the scripts beside this file: all the CIF that `check` reads (docs/FORMATS.md, CIF as
it is read).

Lengths are in hundredths of a micron. A text that is not read is refused with what stands in it; numbers past the
limits of `check`, and scales that leave a part of a grain, are no fault here.
"""
import re

from program import Refused

LAYERS = ("ND", "NP", "NC", "NM", "NI", "NB")
NUMBER = r" ?(-?[0-9]+)(?![0-9])"
TURN = rf" ?(?:T{NUMBER}{NUMBER}|M ?([XY])|R{NUMBER}{NUMBER})"
# The forms of a command, without its semicolon, with one blank for any number of them.
FORMS = {
    "start": re.compile(rf"D ?S{NUMBER}(?:{NUMBER}{NUMBER})?"),
    "layer": re.compile(r"L ?([A-Z0-9]{1,4})"),
    "box": re.compile(rf"B{NUMBER}{NUMBER}{NUMBER}{NUMBER}"),
    "end": re.compile(r"D ?F"),
    "call": re.compile(rf"C{NUMBER}((?:{TURN})*)"),
}
BLANK, BLANKS, PIECE = re.compile(r"[^A-Z0-9();-]+"), re.compile(r"[^A-Z0-9();-]*"), re.compile(r"[^;(]*")
TOP = -1  # what stands outside of all symbols
IDENTITY = (1, 0, 0, 1, 0, 0)
MOST_DEEP = 64


def after(first, then):
    """The map that does one thing and then another: (a, b, c, d, e, f) takes x, y to a x + c y + e, b x + d y + f."""
    a, b, c, d, e, f = first
    p, q, r, s, t, u = then
    return p * a + r * b, q * a + s * b, p * c + r * d, q * c + s * d, p * e + r * f + t, q * e + s * f + u


def moved(box, turn):
    """A box, as left, low, width, height, where a map takes it."""
    a, b, c, d, e, f = turn
    x, y, w, h = box
    ends = [(a * i + c * j + e, b * i + d * j + f) for i, j in ((x, y), (x + w, y + h))]
    (left, low), (right, high) = (map(min, zip(*ends)), map(max, zip(*ends)))
    return left, low, right - left, high - low


class Symbol:
    """A symbol: its name, what scales it, and its parts in order: (layer, box), or (symbol's number, map)."""

    def __init__(self, name, scale):
        self.name, self.scale, self.parts, self.depth = name, scale, [], 1

    def boxes(self):
        """Its own boxes, by layer."""
        found = {}
        for layer, box in self.parts:
            if isinstance(layer, str):
                found.setdefault(layer, []).append(box)
        return found


def commands(text):
    """Gives the commands, each without its semicolon and with one blank for any number of them, up to the E at the end.

    A user extension, which begins with a digit, is given as it stands.
    """
    at, here, long = 0, "", len(text)
    while at < long:
        begin = BLANKS.match(text, at).end()
        if not here and text[begin : begin + 1].isdigit():
            at = text.find(";", begin)
            if at < 0:
                break
            yield text[begin:at]
            at += 1
            continue
        found = PIECE.match(text, at)
        here, at = (here + BLANK.sub(" ", found[0])).lstrip(), found.end()
        if text[at : at + 1] == ";":
            if here:
                yield here.rstrip()
            here, at = "", at + 1
        elif at < long:
            deep = 0
            while at < long:
                deep += (text[at] == "(") - (text[at] == ")")
                at += 1
                if not deep:
                    break
            if deep:
                raise Refused("a comment in it has no end")
            here += " " if here else ""
    if here.strip() != "E":
        raise Refused("its last word is not E")


def turn_of(words, scale):
    """The map of a call's transformations, in the order of the text."""
    turn = IDENTITY
    for x, y, mirror, a, b in re.findall(TURN, words):
        if x:
            turn = after(turn, (1, 0, 0, 1, int(x) * scale, int(y) * scale))
        elif mirror:
            turn = after(turn, (-1, 0, 0, 1, 0, 0) if mirror == "X" else (1, 0, 0, -1, 0, 0))
        else:
            a, b = int(a), int(b)
            if bool(a) == bool(b):
                raise Refused(f"it turns towards {a} {b}")
            a, b = (a > 0) - (a < 0), (b > 0) - (b < 0)
            turn = after(turn, (a, b, -b, a, 0, 0))
    return turn


class Hierarchy:
    """The symbols of a text by number; number TOP has what stands at the top."""

    def __init__(self, symbols):
        self.symbols = symbols
        self._extents = {}

    def unit(self):
        """The length of a u where `compact` wrote the text, else None: it is in all symbols twice the scale."""
        units = {2 * it.scale for number, it in self.symbols.items() if number != TOP}
        return units.pop() if len(units) == 1 else None

    def places(self):
        """Each symbol that is drawn, with the map that takes it there, in the order of the text, the top first."""
        todo = [(TOP, IDENTITY)]
        while todo:
            number, turn = todo.pop()
            yield number, turn
            inner = [(to, after(how, turn)) for to, how in self.symbols[number].parts if not isinstance(to, str)]
            todo += reversed(inner)

    def flat(self):
        """All boxes on the six layers, as (layer, box), in the order in which `check` numbers them."""
        todo = [(TOP, IDENTITY, 0)]
        while todo:
            number, turn, at = todo.pop()
            parts = self.symbols[number].parts
            for here in range(at, len(parts)):
                what, how = parts[here]
                if not isinstance(what, str):
                    todo += [(number, turn, here + 1), (what, after(how, turn), 0)]
                    break
                if what in LAYERS:
                    yield what, moved(how, turn)

    def extent(self, number=TOP):
        """The left, low, right and high end of all boxes on the six layers, or None."""
        if number not in self._extents:
            ends = []
            for what, how in self.symbols[number].parts:
                if isinstance(what, str):
                    box = how if what in LAYERS else None
                else:
                    inner = self.extent(what)
                    box = inner and moved((inner[0], inner[1], inner[2] - inner[0], inner[3] - inner[1]), how)
                if box:
                    ends.append((box[0], box[1], box[0] + box[2], box[1] + box[3]))
            lows, highs = [it[:2] for it in ends], [it[2:] for it in ends]
            self._extents[number] = (*map(min, zip(*lows)), *map(max, zip(*highs))) if ends else None
        return self._extents[number]


def read_masks(text):
    """Gives the hierarchy of a CIF text."""
    symbols = {TOP: Symbol("", 1)}
    here, layer, outside = TOP, None, None
    for one in commands(text):
        if one[0].isdigit():
            name = re.fullmatch(r"9 (\S+)", one)
            if here != TOP and name:
                symbols[here].name = name[1]
            continue
        kind, found = next(((kind, it) for kind, form in FORMS.items() if (it := form.fullmatch(one))), ("", None))
        if not found:
            raise Refused(f"it has the command '{one[:40]}'")
        if kind == "layer":
            layer = found[1]
            continue
        if kind == "call":
            number = int(found[1])
            if number not in symbols or number in (here, TOP):
                raise Refused(f"symbol {number} may not be called there")
            turn = turn_of(found[2], symbols[here].scale)
            symbols[here].parts.append((number, turn))
            symbols[here].depth = max(symbols[here].depth, symbols[number].depth + 1)
            if here != TOP and symbols[here].depth > MOST_DEEP:
                raise Refused(f"symbol {here} is too deep")
            continue
        numbers = [int(it) for it in found.groups() if it is not None]
        if kind == "start":
            number, above, below = numbers if len(numbers) == 3 else (numbers[0], 1, 1)
            if here != TOP or number in symbols or number < 0 or above < 1 or below < 1:
                raise Refused(f"symbol {number} may not begin there")
            symbols[number] = Symbol(f"symbol {number}", above // below if above % below == 0 else above / below)
            here, outside, layer = number, layer, None
        elif kind == "end":
            if here == TOP:
                raise Refused("DF stands outside of a symbol")
            here, layer = TOP, outside
        else:
            length, width, x, y = numbers
            if layer is None:
                raise Refused("a box has no layer")
            if length < 1 or width < 1:
                raise Refused(f"a box is {length} by {width}")
            scale = symbols[here].scale
            box = (x - length / 2) * scale, (y - width / 2) * scale, length * scale, width * scale
            symbols[here].parts.append((layer, box))
    if here != TOP:
        raise Refused(f"symbol {here} has no end")
    return Hierarchy(symbols)
