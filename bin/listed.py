"""Reads the list that `breaks` writes (docs/FORMATS.md, All breaks), for the scripts beside this file."""
import re
from dataclasses import dataclass

from program import Refused

# The rules on two boxes that lie too near: the key of their spacing, and what they are of.
NEAR = {
    4: ("spacing.poly_diffusion", "poly and diffusion that do not overlap"),
    6: ("spacing.metal", "metal of different nets"),
    7: ("spacing.poly", "poly of different nets"),
    8: ("spacing.diffusion", "diffusion of different boxes and different nets"),
    9: ("spacing.cut", "two cuts"),
    10: ("spacing.cut_channel", "a cut and the channel of a transistor"),
    11: ("spacing.implant_channel", "an implant and the channel of a transistor that it does not cover"),
    12: ("spacing.buried_channel", "the window of a buried contact and the channel of a transistor"),
}
LENGTH = r"-?[0-9]+\.[0-9]{3}"
BOX = rf"box ([0-9]+) (N[DPCMIB]) ({LENGTH}) ({LENGTH}) ({LENGTH}) ({LENGTH})"
BREAK = re.compile(rf"rule ([0-9]+) (\S+)(?: least ({LENGTH}))? {BOX}(?: {BOX})?")


@dataclass
class Break:
    """A line of the list: the rule, its key, what it asks for in microns, if it is a length, and the boxes that break
    it: the number of each, its layer, and its left, low, right and high end in microns, as they stand in the line.
    """

    line: str
    rule: int
    key: str
    least: str
    boxes: list

    def asks(self):
        """What the rule asks, in words."""
        if self.rule == 3:
            return "poly and diffusion that overlap cross as a transistor does, or are a buried contact"
        if self.rule in NEAR:
            return f"{NEAR[self.rule][1]} lie at least {self.least} microns apart"
        if self.rule == 5:
            inside = "a cut lies inside one box of metal, and inside one of poly or diffusion"
            return f"{inside}, by {self.least} microns on all sides"
        what = "a cut is" if self.rule == 2 else f"{self.key.partition('.')[2]} is at least"
        return f"{what} {self.least} microns wide and high"


def read_breaks(text):
    """The breaks of a list, in order, and whether there are more than these."""
    lines = text.splitlines()
    count = re.fullmatch(r"breaks ([0-9]+)", lines[0]) if lines else None
    if not count:
        raise Refused(f"no list of breaks: its first line is '{lines[0][:60] if lines else ''}'")
    breaks = []
    for line in lines[1 : int(count[1]) + 1]:
        found = BREAK.fullmatch(line)
        if not found:
            raise Refused(f"no list of breaks: it has the line '{line[:60]}'")
        rule, key, least, *ends = found.groups()
        boxes = [(int(it[0]), it[1], it[2:]) for it in (tuple(ends[:6]), tuple(ends[6:])) if it[0]]
        breaks.append(Break(line, int(rule), key, least or "", boxes))
    rest = lines[len(breaks) + 1 :]
    if len(breaks) < int(count[1]) or rest not in ([], ["more"]):
        raise Refused(f"no list of breaks: it has {len(lines) - 1} lines below 'breaks {count[1]}'")
    return breaks, bool(rest)
