#!/usr/bin/env python3
"""Compares `breaks` with all breaks found by a plain walk over pairs: breaks.py [PROGRAM [SEED [COUNT]]]

COUNT small CIF texts, 2,000 if not given, are made from SEED, 1 if not given (break_texts.py). Of each, the breaks of
the twelve rules are listed here by looking at every box and every pair (docs/FORMATS.md, The rules), with no search.
The whole output has to be the same: with the first break alone, with one fewer than there are, with just as many, with
one more, and without `--most`; and `check` has to name the first of them, or to say `ok`. A text that `check` refuses
for another cause has to be refused alike.

A text that is answered otherwise is printed. The last two lines are how many texts break each rule, and 'N texts, B
breaks, K wrong'; the status is 1 where K is not 0."""
import collections, os, random, subprocess, sys, tempfile
from compact import EXAMPLES, HERE, PROGRAM, TECH, TECH2

sys.path.insert(0, os.path.join(HERE, "..", "bin"))
from break_texts import changed, made
from drawn import Technology, gap_of
from masks import read_masks

WIDTHS = {"ND": "width.diffusion", "NP": "width.poly", "NM": "width.metal"}
KEYS = {2: "cut.size", 4: "spacing.poly_diffusion", 5: "cut.enclosure", 6: "spacing.metal", 7: "spacing.poly",
        8: "spacing.diffusion", 9: "spacing.cut", 10: "spacing.cut_channel", 11: "spacing.implant_channel",
        12: "spacing.buried_channel"}


# ---- boxes: left, right, low and high side, in grains

def encloses(outer, inner, margin):
    return (outer[0] + margin <= inner[0] and inner[1] + margin <= outer[1]
            and outer[2] + margin <= inner[2] and inner[3] + margin <= outer[3])


def common(a, b):
    return max(a[0], b[0]), min(a[1], b[1]), max(a[2], b[2]), min(a[3], b[3])


def past(a, b, axis, margin):
    """Whether a goes past b by the margin on both sides along an axis, 0 for x."""
    k = 2 * axis
    return a[k] + margin <= b[k] and b[k + 1] + margin <= a[k + 1]


class Rules:
    """The boxes of a text, in order, and which of them break which rule."""

    def __init__(self, text, tech):
        self.tech, self.boxes = tech, []
        for layer, (x, y, w, h) in read_masks(text).flat():
            self.boxes.append((layer, tuple(round(2 * it) for it in (x, x + w, y, y + h))))
        self.channels = {}

    def grains(self, key):
        return self.tech[key] * 2 * self.tech["unit"]

    def on(self, layer):
        return [(k, area) for k, (own, area) in enumerate(self.boxes) if own == layer]

    def pairs(self, one, other):
        """All two boxes, one on each layer."""
        return [(a, s, b, t) for a, s in self.on(one) for b, t in self.on(other) if a != b]

    def near(self, one, other, key):
        """Pairs nearer than the spacing of a key, the lesser number first."""
        return {(min(a, b), max(a, b)) for a, s, b, t in self.pairs(one, other) if gap_of(s, t) < self.grains(key)}

    def is_buried(self, poly, diffusion):
        margin = self.grains("extension.buried")
        return self.tech["version"] == 2 and any(encloses(it, common(poly, diffusion), margin)
                                                 for _, it in self.on("NB"))

    def axis_of(self, poly, diffusion):
        """The axis along which poly goes past diffusion, and diffusion past poly along the other, if there is one."""
        return next((k for k in (0, 1) if past(poly, diffusion, k, self.grains("extension.poly"))
                     and past(diffusion, poly, 1 - k, self.grains("extension.diffusion"))), None)

    def crossings(self):
        """Rule 3: the pairs of poly and diffusion that are neither buried nor cross properly; fills in the channels."""
        over = [(p, s, d, t) for p, s, d, t in self.pairs("NP", "ND") if gap_of(s, t) < 0]
        polys, diffusions = (collections.Counter(it[k] for it in over) for k in (0, 2))
        self.buried = [(p, d) for p, s, d, t in over if self.is_buried(s, t)]
        bad = set()
        for p, s, d, t in over:
            if (p, d) in self.buried:
                continue
            axis = self.axis_of(s, t)
            if axis is None or polys[p] > 1 or diffusions[d] > 1:
                bad.add((min(p, d), max(p, d)))
            else:
                self.channels[d] = common(s, t), axis
        return bad

    def pieces(self):
        """The conducting pieces in order: the box's number, its layer and the piece."""
        for k, (layer, area) in enumerate(self.boxes):
            if layer == "ND" and k in self.channels:
                channel, axis = self.channels[k]
                low, high, at = list(area), list(area), 2 * (1 - axis)
                low[at + 1], high[at] = channel[at], channel[at + 1]
                yield from ((k, layer, tuple(low)), (k, layer, tuple(high)))
            elif layer in WIDTHS:
                yield k, layer, area

    def nets(self):
        """The pieces, and the net of each, by chains of links."""
        pieces, cuts = list(self.pieces()), self.on("NC")
        net = list(range(len(pieces)))
        held = [{c for c, cut in cuts if gap_of(area, cut) < 0} for _, _, area in pieces]
        for i, (a, own, s) in enumerate(pieces):
            for j, (b, layer, t) in enumerate(pieces[:i]):
                linked = (own == layer and gap_of(s, t) <= 0 or held[i] & held[j]
                          or (a, b) in self.buried or (b, a) in self.buried)
                if a != b and linked and net[i] != net[j]:
                    net = [net[j] if it == net[i] else it for it in net]
        return pieces, net

    def apart(self, wanted, key):
        """Rules 6 to 8: pieces on a layer, of different boxes and nets, that lie too near one another."""
        pieces, net = self.nets()
        mine = [(k, area, n) for (k, layer, area), n in zip(pieces, net) if layer == wanted]
        return {(a, b) for a, s, m in mine for b, t, n in mine
                if a < b and m != n and gap_of(s, t) < self.grains(key)}

    def at_channels(self, layer, key, free=None):
        """Rules 10 to 12: boxes too near a channel, which goes by its diffusion; free are those that cover it."""
        return {(min(k, d), max(k, d)) for k, area in self.on(layer) for d, (channel, _) in self.channels.items()
                if gap_of(area, channel) < self.grains(key)
                and not (free and encloses(area, channel, self.grains(free)))}

    def uncovered(self):
        margin = self.grains("cut.enclosure")
        held = lambda cut, *layers: any(encloses(area, cut, margin) for own, area in self.boxes if own in layers)
        return {(c, c) for c, cut in self.on("NC") if not (held(cut, "NM") and held(cut, "NP", "ND"))}

    def breaks(self):
        """All breaks: rule, first box, second box, in order."""
        size, wide = self.grains("cut.size"), lambda it: (it[1] - it[0], it[3] - it[2])
        found = {1: {(k, k) for layer, key in WIDTHS.items() for k, it in self.on(layer)
                     if min(wide(it)) < self.grains(key)},
                 2: {(c, c) for c, it in self.on("NC") if wide(it) != (size, size)}, 3: self.crossings()}
        found[4] = self.near("NP", "ND", KEYS[4]) - {(min(a, b), max(a, b)) for a, s, b, t in self.pairs("NP", "ND")
                                                     if gap_of(s, t) < 0}
        found[5], found[9] = self.uncovered(), self.near("NC", "NC", KEYS[9])
        if not any(found[rule] for rule in (1, 2, 3, 4, 5)):
            for rule, layer in ((6, "NM"), (7, "NP"), (8, "ND")):
                found[rule] = self.apart(layer, KEYS[rule])
        if not found[3]:
            found[10] = self.at_channels("NC", KEYS[10])
            found[11] = self.at_channels("NI", KEYS[11], "extension.implant")
            found[12] = self.at_channels("NB", KEYS[12]) if self.tech["version"] == 2 else set()
        return sorted((rule, *pair) for rule, pairs in found.items() for pair in pairs)

    # ---- the text

    def box(self, name, k):
        layer, (left, right, low, high) = self.boxes[k]
        return " box %d %s %s" % (k, layer, " ".join(map(microns, (left, low, right, high))))

    def line(self, rule, a, b):
        key = WIDTHS.get(self.boxes[a][0]) if rule == 1 else KEYS.get(rule, "crossing")
        least = " least " + microns(self.grains(key)) if rule != 3 else ""
        return "rule %d %s%s%s%s\n" % (rule, key, least, self.box("A", a), self.box("B", b) if a != b else "")

    def text(self, breaks, most):
        listed = "".join(self.line(*it) for it in breaks[:most])
        return "breaks %d\n%s%s" % (min(most, len(breaks)), listed, "more\n" if len(breaks) > most else "")


def microns(grains):
    return "%s%d.%03d" % ("-" if grains < 0 else "", abs(grains) * 5 // 1000, abs(grains) * 5 % 1000)


# ---- the program

def examples():
    """The masks of the small examples."""
    names = [name for name in sorted(os.listdir(EXAMPLES)) if name.endswith(".cif")]
    texts = [open(os.path.join(EXAMPLES, name)).read() for name in names]
    return [it for it in texts if len(list(read_masks(it).flat())) <= 120]


def ran(*words):
    it = subprocess.run([PROGRAM, *words], stdout=subprocess.PIPE, stderr=subprocess.PIPE, text=True)
    return it.returncode, it.stdout, it.stderr


def faults(path, tech_path, rules):
    """What is answered otherwise, and the breaks."""
    breaks, files = rules.breaks(), (path, "--tech", tech_path)
    checked = ran("check", *files)
    if checked[0] not in (0, 13):
        return (["refused otherwise than by check"] if ran("breaks", *files) != checked else []), []
    first = (13, "", "sticks: rule %d: boxes %d %d\n" % breaks[0]) if breaks else (0, "ok\n", "")
    wrong = [] if checked == first else ["check: %r in place of %r" % (checked, first)]
    for most in sorted({1, len(breaks) - 1, len(breaks), len(breaks) + 1, 1000} & set(range(1, 65537))):
        option = [] if most == 1000 else ["--most", str(most)]
        said, wanted = ran("breaks", *files, *option), (0, rules.text(breaks, most), "")
        if said != wanted:
            wrong.append("breaks %s: status %d %s%sin place of\n%s" % (" ".join(option), *said, wanted[1]))
    return wrong, breaks


def main():
    seed, count = (int(it) for it in (sys.argv[2:4] + ["1", "2000"][len(sys.argv[2:4]):]))
    texts, techs, total, bad = examples(), {}, 0, 0
    for path in (TECH, TECH2):
        with open(path) as file:
            techs[path] = Technology(file.read())
    hit = collections.Counter()
    with tempfile.TemporaryDirectory() as folder:
        path = os.path.join(folder, "c")
        for number in range(count):
            rng = random.Random("%d %d" % (seed, number))
            text = changed(rng, texts) if rng.random() < 0.4 else made(rng)
            with open(path, "w") as file:
                file.write(text)
            tech = rng.choice([TECH, TECH2])
            wrong, breaks = faults(path, tech, Rules(text, techs[tech]))
            hit.update({rule for rule, _, _ in breaks} or {"none"})
            total += len(breaks)
            bad += bool(wrong)
            if wrong:
                print("text %d, %s:\n%s\n%s" % (number, os.path.basename(tech), text, "\n".join(wrong)), flush=True)
    print("texts by rule: " + ", ".join("%s %d" % it for it in sorted(hit.items(), key=lambda it: str(it[0]).zfill(4))))
    print("%d texts, %d breaks, %d wrong" % (count, total, bad))
    return 1 if bad else 0


if __name__ == "__main__":
    if sys.argv[1:2] in (["--help"], ["-h"]):
        print(__doc__.strip())
        sys.exit()
    sys.exit(main())
