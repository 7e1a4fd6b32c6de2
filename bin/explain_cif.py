"""What is wrong with a CIF text, and which of its boxes break a rule."""
import re
from dataclasses import dataclass, field

from explain_words import DESIGN, SVG, TECHNOLOGY, kind_of, repair
from masks import IDENTITY, TOP, after, turn_of
from program import Refused

LAYERS = {"ND": "diffusion", "NP": "poly", "NC": "cut", "NM": "metal", "NI": "implant", "NB": "buried window"}
LARGEST, MOST_FACTOR = 1 << 30, 65_536
BLANK = re.compile(r"[^A-Z0-9();-]+")
FORMS = {
    "DS": "DS n, or DS n a b: a symbol's number, and its scale", "DF": "DF alone",
    "L": "L and a name of 1 to 4 capitals or digits",
    "B": "B and four numbers: length, width, and the centre's x and y",
    "C": "C n, and any number of T x y, M X, M Y, R a b", "E": "E alone, at the end",
}
OTHERS = {"P": "a polygon", "W": "a wire", "R": "a round flash", "DD": "a deletion of symbols"}


@dataclass
class Symbol:
    """A symbol: where it begins, its scale, and its boxes and calls in order; how many boxes it draws."""

    begin: int
    scale: tuple = (1, 1)
    parts: list = field(default_factory=list)
    count: int = 0


def plain(command):
    """A command with one blank between its words, without comments."""
    if command[:1].isdigit():
        return command
    while (shorter := re.sub(r"\([^()]*\)", " ", command)) != command:
        command = shorter
    spaced = (re.sub(r"([A-Z])", r" \1 ", BLANK.sub(" ", command)) if not command.lstrip().startswith("L")
              else BLANK.sub(" ", command))
    spaced = re.sub(r"(?<=[\d ])-", " -", spaced)
    return re.sub(r"^D ([SFD])\b", r"D\1", " ".join(spaced.split()))


def commands(text):
    """Gives the place and the text of each command, its semicolon left out; the last one is what stands behind the last
    semicolon.
    """
    at, long = 0, len(text)
    while at < long:
        begin = at
        while begin < long and not re.match(r"[A-Z0-9();-]", text[begin]):
            begin += 1
        if begin < long and text[begin] == "(":
            begin = after_comment(text, begin)
            at = begin
            continue
        if begin < long and text[begin].isdigit():
            end = text.find(";", begin)
            end = long if end < 0 else end
        else:
            end = begin
            while end < long and text[end] != ";":
                end = after_comment(text, end) if text[end] == "(" else end + 1
        if begin < end:
            yield begin, text[begin:end]
        at = end + 1


def after_comment(text, at):
    """The place behind a comment in balanced parentheses."""
    deep = 0
    for found in re.finditer(r"[()]", text[at:]):
        deep += 1 if found[0] == "(" else -1
        if not deep:
            return at + found.end()
    return len(text)


class Masks:
    """A CIF text, read up to a place, or to its end: its symbols, and what is open there. Lengths of boxes are in
    grains.
    """

    def __init__(self, text, end=None):
        self.text, self.symbols, self.open, self.layer, outside = text, {TOP: Symbol(0)}, TOP, None, None
        for at, raw in commands(text):
            if end is not None and at >= end:
                break
            words = plain(raw).split(" ")
            head, here = words[0], self.symbols[self.open]
            if head == "DS":
                numbers = [int(it) for it in words[1:]]
                self.open, outside, self.layer = numbers[0], self.layer, None
                self.symbols[self.open] = Symbol(at, tuple(numbers[1:3]) if len(numbers) == 3 else (1, 1))
            elif head == "DF":
                self.open, self.layer = TOP, outside
            elif head.startswith("L"):
                self.layer = "".join(words)[1:]
            elif head == "B" and self.layer in LAYERS:
                here.parts.append((at, self.layer, tuple(map(int, words[1:5]))))
                here.count += 1
            elif head == "C":
                here.parts.append((at, int(words[1]), " ".join(words[2:])))
                here.count += self.symbols[int(words[1])].count

    def box(self, number):
        """A box by its number: its layer, its left, right, low and high side, and the places of its command and of its
        calls.
        """
        symbol, turn, places = self.symbols[TOP], IDENTITY, []
        while True:
            for at, what, how in symbol.parts:
                count = 1 if isinstance(what, str) else self.symbols[what].count
                if number < count:
                    break
                number -= count
            else:
                return None
            places.append(at)
            above, below = symbol.scale
            if isinstance(what, str):
                return what, sides(how, above, below, turn), places
            turn = after(turn_of(how, 2 * above / below), turn)
            symbol = self.symbols[what]

    def boxes(self, number=TOP, turn=IDENTITY):
        """All boxes, in order, as layer and sides."""
        above, below = self.symbols[number].scale
        for _, what, how in self.symbols[number].parts:
            if isinstance(what, str):
                yield what, sides(how, above, below, turn)
            elif self.symbols[what].count:
                yield from self.boxes(what, after(turn_of(how, 2 * above / below), turn))


def sides(numbers, above, below, turn):
    long, wide, x, y = (it * above / below for it in numbers)
    a, b, c, d, e, f = turn
    corners = ((2 * x - long, 2 * y - wide), (2 * x + long, 2 * y + wide))
    ends = [(a * i + c * j + e, b * i + d * j + f) for i, j in corners]
    (left, right), (low, high) = (sorted(it) for it in zip(*ends))
    return left, right, low, high


def shift_of(words):
    """What the shifts of a call come to, or no shift where it turns in no right angle."""
    try:
        return turn_of(words, 1)[4:]
    except Refused:
        return 0, 0


def line_of(text, at):
    """The number of the line and the column of a place, both from 1."""
    return text.count("\n", 0, at) + 1, at - text.rfind("\n", 0, at)


class Fault:
    """A fault of a text at a place, which is counted in bytes."""

    def __init__(self, path, data, offset):
        self.path, self.text, self.at = path, data.decode("latin-1"), offset
        found = next((it for it in commands(self.text) if it[0] <= offset < it[0] + max(1, len(it[1]))), (offset, ""))
        self.raw, self.words = found[1], plain(found[1]).split(" ")
        self.masks = None

    def shown(self, at):
        line, column = line_of(self.text, at)
        raw = next((raw for begin, raw in commands(self.text[at : at + 4096])), "")
        return f"{self.path}:{line}:{column}: {' '.join(raw.split())[:80]}"

    def explain(self, kind):
        what = kind_of(self.text)
        if what in (DESIGN, TECHNOLOGY, SVG) or self.text[:4] == "\x00\x06\x00\x02":
            told = "GDSII, which is another format" if self.text.startswith("\x00") else what
            yield f"{self.path} is no CIF: it looks like {told}"
            if what == DESIGN:
                yield f"check, breaks and extract read masks: 'bin/sticks compact {self.path} --tech FILE > OUT.cif' makes them"
            return
        if not what:
            yield (f"{self.path} does not begin as CIF does: with DS, L, B, C, a comment in parentheses, or an "
                   "extension that begins with a digit")
        self.masks = Masks(self.text, self.at)
        yield (self.shown(self.at) if self.at < len(self.text)
               else f"{self.path}:{line_of(self.text, self.at)[0]}: the end of the text")
        yield from getattr(self, kind)()
        yield from repair(kind)

    def numbers(self):
        return [int(it) for it in self.words[1:] if re.fullmatch(r"-?\d+", it)]

    def BadCommand(self):
        head = self.words[0][:1] if self.words[0].startswith("L") else self.words[0]
        next_one = next((k for k, it in enumerate(self.words) if k and head in ("B", "DS", "C", "L")
                         and it in ("B", "DS", "DF", "D", "C", "L", "E")), 0)
        strange = next((it for it in self.words[1:] if not re.fullmatch(r"-?\d+", it)), "")
        if self.raw.count("(") > self.raw.count(")"):
            yield "a comment that begins here has no closing parenthesis"
        elif next_one:
            yield f"a semicolon is missing in front of '{' '.join(self.words[next_one:])[:40]}'"
        elif head in OTHERS:
            yield f"'{head}' is {OTHERS[head]} of CIF, which is not read here: boxes (B) alone are"
        elif head == "B" and len(self.numbers()) > 4:
            yield (f"a box has four numbers, here are {len(self.numbers())}: a box that is turned by a direction is "
                   "not read")
        elif head == "DF" and self.masks.open == TOP and len(self.words) == 1:
            yield "no symbol is open here, so DF ends none"
        elif head in ("B", "DS") and strange:
            yield f"'{strange}' stands where a number is asked for; its form is: {FORMS[head]}"
        elif head in FORMS:
            count = f"; here are {len(self.numbers())} numbers" if head in ("B", "DS") else ""
            yield f"its form is: {FORMS[head]}{count}"
        else:
            yield f"'{head}' begins no command; those that are read begin with DS, DF, L, B, C, a digit, or are E"
        if re.search(r"[a-z]", re.sub(r"\([^()]*\)", "", self.raw)):
            yield "small letters are blanks in CIF"
        if "." in self.raw:
            yield "numbers are whole: a point is a blank, and parts two numbers"

    def BadNumber(self):
        numbers, head = self.numbers(), self.words[0]
        for it in numbers:
            if abs(it) > LARGEST:
                yield f"the number {it} is past 2^30, {LARGEST:,}"
        if head == "B" and len(numbers) > 1:
            for name, it in zip(("length", "width"), numbers):
                if it < 1:
                    yield f"the {name} of the box is {it}; it is at least 1"
        if head in ("DS", "C") and numbers and numbers[0] < 0:
            yield f"the number of the symbol is {numbers[0]}; it is at least 0"
        if head == "DS":
            for name, it in zip(("a", "b"), numbers[1:3]):
                if not 1 <= it <= MOST_FACTOR:
                    yield f"{name} of the scale is {it}; it is a number from 1 to {MOST_FACTOR:,}"
        if head == "C":
            words = " ".join(self.words[2:])
            for a, b in re.findall(r"R (-?\d+) (-?\d+)", words):
                if bool(int(a)) == bool(int(b)):
                    yield f"R {a} {b}: one of the two is 0, the other is not, as only right angles are read"
            shift = shift_of(words)
            if max(map(abs, shift)) > LARGEST:
                yield f"the shift comes to {shift[0]} and {shift[1]}, which is past 2^30"

    def symbol(self, number):
        return self.shown(self.masks.symbols[number].begin)

    def NestedDefinition(self):
        yield f"symbol {self.masks.open} is open here, and its DF is missing above: {self.symbol(self.masks.open)}"

    def RepeatedSymbol(self):
        yield f"symbol {self.numbers()[0]} is defined already: {self.symbol(self.numbers()[0])}"

    def UnknownSymbol(self):
        number = self.numbers()[0]
        if self.masks.open == number:
            yield f"symbol {number} calls itself"
            return
        later = next((at for at, raw in commands(self.text) if at > self.at
                      and plain(raw).split(" ")[:2] == ["DS", str(number)]), None)
        known = sorted(it for it in self.masks.symbols if it != TOP)
        hint = (f"it is defined below, and has to stand above its calls: {self.shown(later)}" if later
                else f"those above are {', '.join(map(str, known[:12]))}" if known else "none is defined above")
        yield f"symbol {number} is not defined above; {hint}"

    def NoLayer(self):
        inside = self.masks.open != TOP
        yield "no layer stands for this box: put 'L NM;', or that of another layer, before it"
        if inside:
            yield f"a symbol begins without a layer, whatever stood above it: {self.symbol(self.masks.open)}"

    def OddScale(self):
        above, below = self.masks.symbols[self.masks.open].scale
        numbers = self.numbers()[1:] if self.words[0] == "C" else self.numbers()
        if self.words[0] == "C":
            numbers = shift_of(" ".join(self.words[2:]))
        odd = [it for it in numbers if it * above % below]
        yield (f"the scale of symbol {self.masks.open} is {above}/{below}: {', '.join(map(str, odd))} times {above} is "
               f"no multiple of {below}: {self.symbol(self.masks.open)}")

    def TooDeep(self):
        yield f"symbol {self.numbers()[0]} is 64 deep already: symbols call symbols at most 63 deep"

    def NoEnd(self):
        if after_last(self.text):
            yield f"a comment has no closing parenthesis: {self.shown(after_last(self.text) - 1)}"
            return
        last = [raw for _, raw in commands(self.text)][-1:]
        if last and not self.text.rstrip().endswith(";") and plain(last[0]) != "E":
            yield f"the last command, '{' '.join(last[0].split())[:60]}', has no semicolon"
        yield "the text ends without E, which stands behind the last command"
        if self.masks.open != TOP:
            yield f"and symbol {self.masks.open} has no DF: {self.symbol(self.masks.open)}"

    def AfterEnd(self):
        yield "something stands behind E, which ends the text: only blanks and comments may"


def after_last(text):
    """One past the place of the first comment without an end, or 0."""
    at = 0
    while True:
        begin = text.find("(", at)
        if begin < 0:
            return 0
        end = after_comment(text, begin)
        if end == len(text) and text[begin:].count("(") > text[begin:].count(")"):
            return begin + 1
        at = end
