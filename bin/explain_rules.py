"""Which boxes of a CIF text break a rule, where they stand, and by how much."""
from explain_cif import LAYERS, Masks, line_of
from drawn import gap_of
from explain_words import repair
from listed import NEAR

MOST_TOLD = 16  # of the lines of a list
WIDTH = {"ND": "width.diffusion", "NP": "width.poly", "NM": "width.metal"}


def overlap(a, b):
    return gap_of(a, b) < 0


def common(a, b):
    return max(a[0], b[0]), min(a[1], b[1]), max(a[2], b[2]), min(a[3], b[3])


class Rules:
    """A text, and two of its boxes, which a refusal or a line of a list names."""

    def __init__(self, path, data, tech):
        self.path, self.text, self.tech = path, data.decode("latin-1"), tech
        self.masks = Masks(self.text)
        self.grains = 2 * tech["unit"] or 1
        self.named, self.a, self.b = {}, 0, 0

    def at(self, a, b):
        """The same, with these boxes."""
        self.named = {it: self.masks.box(it) for it in sorted({a, b})}
        self.a, self.b = a, b
        return self

    def in_u(self, length):
        return f"{length / self.grains:g}"

    def place(self, at):
        line, column = line_of(self.text, at)
        return f"{self.path}:{line}:{column}: {' '.join(self.text[at : self.text.find(';', at)].split())[:60]}"

    def told(self):
        for number, (layer, box, places) in self.named.items():
            left, right, low, high = (self.in_u(it) for it in box)
            yield f"box {number}: {LAYERS[layer]} ({layer}), x {left} to {right}, y {low} to {high} u"
            yield f"  {self.place(places[-1])}"
            yield from (f"  by the call {self.place(at)}" for at in places[-2::-1])

    def pair(self):
        """The poly and the diffusion of the two, as boxes."""
        return tuple(next(it[1] for it in self.named.values() if it[0] == wanted) for wanted in ("NP", "ND"))

    def past(self, a, b):
        """How far a goes past b on its four sides, in u."""
        return [(b[0] - a[0]) / self.grains, (a[1] - b[1]) / self.grains, (b[2] - a[2]) / self.grains,
                (a[3] - b[3]) / self.grains]

    def crosses(self, poly, diff):
        """Whether they cross properly, so that a channel is theirs."""
        p, d = self.past(poly, diff), self.past(diff, poly)
        one, other = self.tech["extension.poly"], self.tech["extension.diffusion"]
        return (overlap(poly, diff) and any(min(p[2 * k : 2 * k + 2]) >= one and min(d[2 - 2 * k : 4 - 2 * k]) >= other
                                            for k in (0, 1)))

    def channel(self, diff):
        """The channel of a diffusion box, if poly crosses it."""
        polys = [box for layer, box in self.masks.boxes() if layer == "NP" and self.crosses(box, diff)]
        return common(polys[0], diff) if polys else None

    def explain(self, rule):
        yield from self.told()
        if rule == 1:
            layer, box, _ = self.named[self.a]
            wide, high = box[1] - box[0], box[3] - box[2]
            yield (f"rule: {LAYERS[layer]} is at least {self.tech[WIDTH[layer]]} u wide and high ({WIDTH[layer]}); "
                   f"this box is {self.in_u(wide)} by {self.in_u(high)} u")
        elif rule == 2:
            _, box, _ = self.named[self.a]
            yield (f"rule: a cut is {self.tech['cut.size']} by {self.tech['cut.size']} u (cut.size); this one is "
                   f"{self.in_u(box[1] - box[0])} by {self.in_u(box[3] - box[2])} u")
        elif rule == 3:
            yield from self.improper()
        elif rule == 5:
            yield from self.enclosure()
        else:
            yield from self.too_near(rule)

    def too_near(self, rule):
        key, what = NEAR[rule]
        boxes = [[it[1]] for it in (self.named[self.a], self.named[self.b])]
        layers = [self.named[self.a][0], self.named[self.b][0]]
        if rule in (8, 10, 11, 12):
            for k, layer in enumerate(layers):
                channel = self.channel(boxes[k][0]) if layer == "ND" else None
                if channel and rule == 8:
                    boxes[k] = pieces(boxes[k][0], channel)
                elif channel:
                    boxes[k] = [channel]
        gap = min((gap_of(i, j) for i in boxes[0] for j in boxes[1]), default=0)
        need = self.tech[key]
        far = f"they lie {self.in_u(gap)} u apart" if gap > 0 else "they touch" if gap == 0 else "they overlap"
        yield f"rule: {what} lie at least {need} u apart ({key}); {far}"
        if gap >= 0:
            yield (f"repair: move one of them {need - gap / self.grains:g} u or more away"
                   + (", or join them to one net" if rule in (6, 7, 8) else ""))
        elif rule == 11:
            yield (f"repair: an implant goes past a channel by {self.tech['extension.implant']} u on all sides, or "
                   "keeps off it")

    def improper(self):
        poly, diff = self.pair()
        if self.crosses(poly, diff):
            others = [n for n, (layer, box) in enumerate(self.masks.boxes())
                      if (layer == "NP" and overlap(box, diff) or layer == "ND" and overlap(box, poly))
                      and n not in self.named]
            yield ("rule: they cross as a transistor does, but one of them overlaps a further box of the other's layer"
                   + (f": box {others[0]}" if others else ""))
            return
        one, other = self.tech["extension.poly"], self.tech["extension.diffusion"]
        yield (f"rule: poly and diffusion that overlap cross: poly goes past diffusion by {one} u on two opposite "
               f"sides (extension.poly), and diffusion past poly by {other} u on the two others (extension.diffusion)")
        past, beside = self.past(poly, diff), self.past(diff, poly)
        names = ("to the left", "to the right", "below", "above")
        across = 0 if min(past[:2]) + min(beside[2:]) >= min(past[2:]) + min(beside[:2]) else 2
        for k, name in enumerate(names):
            is_poly = across <= k < across + 2
            has, need = (past[k], one) if is_poly else (beside[k], other)
            if has < need:
                how = f"goes {has:g} u past" if has > 0 else "ends with" if has == 0 else f"ends {-has:g} u short of"
                yield (f"{name} {'poly' if is_poly else 'diffusion'} {how} {'diffusion' if is_poly else 'poly'}: "
                       f"{need - has:g} u are missing")
        if self.tech["version"] == 2:
            yield ("or it is a buried contact, where a window (NB) covers what they have in common by "
                   f"{self.tech['extension.buried']} u on all sides")

    def enclosure(self):
        _, cut, _ = self.named[self.a]
        need, best = self.tech["cut.enclosure"], {}
        for layer, box in self.masks.boxes():
            if layer in ("NM", "NP", "ND") and overlap(box, cut):
                kind = "metal" if layer == "NM" else "poly or diffusion"
                best[kind] = max(best.get(kind, -1 << 30), min(self.past(box, cut)))
        yield (f"rule: a cut lies inside one box of metal, and inside one of poly or diffusion, by {need} u on all "
               "sides (cut.enclosure)")
        for kind in ("metal", "poly or diffusion"):
            if kind not in best:
                yield f"no box of {kind} lies over this cut"
            elif best[kind] < need:
                yield f"of {kind} the best box goes {best[kind]:g} u past it on its narrowest side"


def pieces(diff, channel):
    """The two pieces of diffusion beside a channel."""
    left, right, low, high = diff
    if channel[0] > left:
        return [(left, channel[0], low, high), (channel[1], right, low, high)]
    return [(left, right, low, channel[2]), (left, right, channel[3], high)]


def broken(path, data, tech, rule, a, b):
    yield from Rules(path, data, tech).at(a, b).explain(rule)
    yield "the masks that compact writes keep all rules; docs/FORMATS.md, The rules, has the twelve"


def listed(path, data, tech, breaks, is_more):
    """What the lines of a list of breaks mean."""
    if not breaks:
        yield f"no rule is broken in {path}"
        return
    rules, found = Rules(path, data, tech), {one.rule for one in breaks}
    for one in breaks[:MOST_TOLD]:
        numbers = [it[0] for it in one.boxes]
        yield f"rule {one.rule}, {one.key}:"
        yield from rules.at(numbers[0], numbers[-1]).explain(one.rule)
    if len(breaks) > MOST_TOLD:
        yield (f"{len(breaks) - MOST_TOLD} lines more are not explained; bin/picture --mark and bin/markers show all "
               "that are listed")
    if is_more:
        yield "there are more breaks than these; --most N lists up to 65,536"
    if found & {1, 2, 3, 4, 5}:
        yield "rules 6 to 8, on nets, are looked at only where rules 1 to 5 hold; mending these may show more"
    if 3 in found:
        yield "rules 10 to 12, on channels, are looked at only where rule 3 holds"


def not_proper(path, data, tech, a, b):
    rules = Rules(path, data, tech).at(a, b)
    yield from rules.told()
    yield from rules.improper()
    yield from repair("14 `not proper")
