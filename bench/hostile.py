#!/usr/bin/env python3
"""Times `check`, `breaks` and `extract` on CIF texts that are made to be slow: hostile.py [SHARE [PROGRAM]]

Each text has 1,048,576 boxes (or that many divided by SHARE), as many as the program takes, and often a few hundred
bytes: symbols of many boxes that are called many times. Their boxes lie on one another, so that pairs of near boxes
number up to 2^39. Two texts besides have many calls of a symbol that draws nothing. Each line gives the seconds and the
most memory (peak resident set, in MB) of `check`, of `breaks` with as many lines as it lists, and of `extract`, how
each ended, and how many times as long as in one share `check` takes in 2 and in 64 shares, by the clock or by the
processor, whichever is less. The first line is a plain text of as many boxes that lie apart; the last line tells how
many times as long the slowest took. A run ends after 120 seconds of the processor. The status is 1, and the line ends
with SLOW, where a text
  takes more than ten times as long as the plain one and more than ten seconds, or more than 400 MB,
  has a number in TIMES and `breaks` takes more than so many times as long as `check` of the plain one, and a fifth of a
    second more,
  takes more than 1.5 times as long in some number of shares as in one, and a fifth of a second more, or
  takes more than twice as long as its twin in TWINS, and a fifth of a second more.
"""
import os, random, resource, subprocess, sys, tempfile, time
from compact import PROGRAM

ROOT = os.path.dirname(os.path.dirname(os.path.abspath(__file__)))
TECHS = [os.path.join(ROOT, "examples", name) for name in ("nmos.toml", "nmos2.toml")]
U = 150  # hundredths of a micron
SPLITS = (2, 64)
LONGEST = 120  # seconds of the processor
# Texts with the same boxes and as many commands as another: a symbol that draws nothing is called no more often for
# being called where a box is.
TWINS = {"calls of nothing, inside": "calls of nothing, outside"}
COMMANDS = {"check": [], "breaks": ["--most", "65536"], "extract": []}
TIMES = {"apart": 1.2, "some pairs too near": 3}


class Text:
    """A CIF text, written symbol by symbol. Lengths are in u."""

    def __init__(self):
        self.parts, self.count = [], 0

    def boxes(self, boxes):
        """The lines of boxes: layer, low and high end on x, low and high end on y."""
        lines, last = [], None
        for layer, x0, x1, y0, y1 in boxes:
            if layer != last:
                lines.append(f"L {layer};")
                last = layer
            lines.append(f"B {(x1 - x0) * U} {(y1 - y0) * U} {(x0 + x1) * U // 2} {(y0 + y1) * U // 2};")
        return "".join(lines)

    def symbol(self, boxes):
        self.count += 1
        self.parts.append(f"DS {self.count};{self.boxes(boxes)}DF;")
        return self.count

    def call(self, symbol, x=0, y=0, more=0):
        """A call, shifted by x and y, and by so many hundredths of a micron more on x."""
        self.parts.append(f"C {symbol} T {x * U + more} {y * U};")

    def top(self, boxes):
        self.parts.append(self.boxes(boxes))

    def text(self):
        return "".join(self.parts) + "E\n"


def array(box, across, up, steps, text=None):
    """Copies of a box: `across` in a symbol and `up` calls, shifted by steps on x and y."""
    text = text or Text()
    layer, x0, x1, y0, y1 = box
    (ax, ay), (bx, by) = steps
    symbol = text.symbol([(layer, x0 + i * ax, x1 + i * ax, y0 + i * ay, y1 + i * ay) for i in range(across)])
    for j in range(up):
        text.call(symbol, j * bx, j * by)
    return text


def texts(n):
    """The texts, by name, with the technology: n is 1,024 at the limit, so that n * n boxes are made."""
    metal = ("NM", 0, 20, 0, 20)
    yield "apart", 0, array(metal, n, n, ((40, 0), (0, 40)))
    yield "equal", 0, array(metal, n, n, ((0, 0), (0, 0)))
    yield "sliding", 0, array(("NM", 0, 2000, 0, 20), n, n, ((2, 0), (2 * n, 0)))
    yield "sliding both ways", 0, array(("NM", 0, 2000, 0, 2000), n, n, ((2, 0), (0, 2)))
    for name, gap in (("two heaps, touching", 0), ("two heaps, too near", 4), ("two heaps, clear", 8)):
        text = array(metal, n, n // 2, ((0, 0), (0, 0)))
        yield name, 0, array(("NM", 20 + gap, 40 + gap, 0, 20), n, n // 2, ((0, 0), (0, 0)), text)
    wide = 12 * n * n // 2 if n <= 256 else 12 * n * 64
    text = Text()
    rows, half = min(n * n // 2, wide // 12), n * n // 2
    for turned in (False, True):
        bars = [("NM", *((0, wide, 12 * i, 12 * i + 6) if not turned else (12 * i, 12 * i + 6, 0, wide)))
                for i in range(min(n, rows))]
        symbol = text.symbol(bars)
        for j in range(half // len(bars)):
            place = 12 * len(bars) * (j % max(1, rows // len(bars)))
            text.call(symbol, *((0, place) if not turned else (place, 0)))
    yield "crossing bars of metal", 0, text
    text = Text()
    for turned, layer in ((False, "NM"), (True, "NP")):
        symbol = text.symbol(
            [(layer, *((0, wide, 12 * i, 12 * i + 6) if not turned else (12 * i, 12 * i + 6, 0, wide)))
             for i in range(n)])
        for j in range(n // 2):
            text.call(symbol, *((0, 12 * n * (j % 64)) if not turned else (12 * n * (j % 64), 0)))
    yield "bars of metal and poly", 0, text
    # Bars of 20 millimetres in rows, each row of one net, of bars that slide by a hundredth of a micron.
    text = Text()
    symbol = text.symbol([("NM", 0, 13334, 12 * i, 12 * i + 6) for i in range(n)])
    for j in range(n):
        text.call(symbol, more=j)
    yield "long bars in rows", 0, text
    text = Text()
    for j in range(n):
        text.call(text.symbol([("NM", -10 - j * n - i, 10 + j * n + i, -10 - j * n - i, 10 + j * n + i)
                               for i in range(n)]))
    yield "nested", 0, text
    yield "one column, overlapping", 0, array(("NM", 0, 20, 0, 20), n, n, ((0, 2), (0, 2 * n)))
    text = Text()
    third = n * n // 3
    for box, count in ((("NP", 0, 8, 0, 8), third), (("NM", 0, 8, 0, 8), third), (("NC", 2, 6, 2, 6), third)):
        symbol = text.symbol([box] * min(n, count))
        for j in range(count // min(n, count)):
            text.call(symbol)
    yield "cuts under piles", 0, text
    text = array(("NC", 0, 4, 0, 4), n, n - 1, ((12, 0), (0, 12)))
    text.top([(layer, -10 - i, 12 * n + 10, -10, 12 * n + 10) for layer in ("NM", "NP") for i in range(8)])
    yield "cuts under sixteen sheets", 0, text
    for name, layer in (("a heap of cuts, in pads", "NP"), ("a heap of cuts, in metal", "NI")):
        text = array(("NC", 0, 4, 0, 4), n, n - 1, ((0, 0), (0, 0)))
        text.top([("NM", -2, 6, -2, 6), (layer, -2, 6, -2, 6)])
        yield name, 0, text
    # A sixteenth of the boxes has a partner that is too near.
    text = array(metal, n, n - n // 16, ((40, 0), (0, 80)))
    for j in range(n // 16):
        text.call(1, 0, 80 * j + 24)
    yield "some pairs too near", 0, text
    text = Text()
    for box, count in ((("NP", -4, 8, 0, 4), 1), (("ND", 0, 4, -4, 8), 1)):
        text.top([box])
    side = 64 * n // 1024 or 1
    symbol = text.symbol([("NP", 20 * i - 4, 20 * i + 8, 0, 4) for i in range(n // 4)])
    other = text.symbol([("ND", 20 * i, 20 * i + 4, -4, 8) for i in range(n // 4)])
    implant = text.symbol([("NI", -10, 20 * (n // 4) + 10, -10, 20 * n + 10)] * (n // 2))
    for j in range(1, n):
        text.call(symbol, 0, 20 * j)
        text.call(other, 0, 20 * j)
        text.call(implant)
    yield "implants over transistors", 0, text
    text = Text()
    for box in (("NP", 4, 8, 4, 8), ("ND", 4, 8, 4, 8)):
        symbol = text.symbol([box] * n)
        for j in range(n // 2 - 1):
            text.call(symbol)
    text.top([("NB", 0, 12, 0, 12)])
    yield "piles under a window", 1, text
    text = array(("NM", 0, 2000, 0, 20), n, n // 2, ((2, 0), (2 * n, 0)))
    yield "sliding heaps, too near", 0, array(("NM", 0, 2000, 24, 44), n, n // 2, ((2, 0), (2 * n, 0)), text)
    text = array(("NM", 0, 2000, 0, 20), n, n // 2, ((2, 0), (2 * n, 0)))
    yield "sliding heaps, clear", 0, array(("NM", 0, 2000, 26, 46), n, n // 2, ((2, 0), (2 * n, 0)), text)
    rng, text = random.Random(1), Text()
    for j in range(16):
        boxes = []
        for _ in range(n):
            x, y, l, w = rng.randrange(0, 40 * n), rng.randrange(0, 40 * n), 2 * rng.randrange(
                3, 200), 2 * rng.randrange(3, 200)
            boxes.append(("NM", x, x + l, y, y + w))
        symbol = text.symbol(boxes)
        for _ in range(n // 16):
            text.call(symbol, rng.randrange(0, 400 * n), rng.randrange(0, 400 * n))
    yield "random, crowded", 0, text
    # The partner of each box, which is too near, stands half the text after it: so all that break a rule with a box of
    # the later half stand before it.
    text = array(metal, n, n // 2, ((80, 0), (0, 40)))
    for j in range(n // 2):
        text.call(1, 20, 40 * j, more=1)
    yield "partners in the other half", 0, text
    many = 40 * n
    for name, inside in (("calls of nothing, outside", False), ("calls of nothing, inside", True)):
        text, nothing = Text(), "C 1;" * many
        text.symbol([])
        text.parts += ["DS 2;", text.boxes([metal]), nothing if inside else "", "DF;", "" if inside else nothing,
                       "C 2;" * many]
        yield name, 0, text


def measured(words, program):
    """The seconds of a run by the clock and by the processor, the memory, and the first line that it says."""
    begun = time.time()
    limit = lambda: resource.setrlimit(resource.RLIMIT_CPU, (LONGEST, LONGEST))
    child = subprocess.Popen([program, *words], stdout=subprocess.PIPE, stderr=subprocess.PIPE, preexec_fn=limit)
    said = child.stdout.read()[:60].split(b"\n")[0].decode()
    wrong = child.stderr.read()[:60].split(b"\n")[0].decode()
    _, status, used = os.wait4(child.pid, 0)
    child.returncode = os.waitstatus_to_exitcode(status)
    return time.time() - begun, used.ru_utime, used.ru_maxrss // 1024, said or wrong or f"status {child.returncode}"


def main():
    share = int(sys.argv[1]) if len(sys.argv) > 1 else 1
    program = sys.argv[2] if len(sys.argv) > 2 else PROGRAM
    n = 1024
    while share >= 4:
        n, share = n // 2, share // 4
    any_slow, plain, worst, of = False, {}, 0, {}
    print(f"{n * n} boxes")
    with tempfile.TemporaryDirectory() as folder:
        for name, kind, text in texts(n):
            file = os.path.join(folder, "cif")
            with open(file, "w") as it:
                it.write(text.text())
            line, slow = f"{name:28}", False
            for word, options in COMMANDS.items():
                took, user, held, said = measured([word, file, "--tech", TECHS[kind], *options], program)
                plain.setdefault(word, user)
                of[name, word] = took, user
                worst = max(worst, user / max(plain[word], 0.01))
                slow |= held > 400 or (user > 10 * plain[word] and user > 10)
                slow |= name in TWINS and user > 2 * of[TWINS[name], word][1] + 0.2
                slow |= word == "breaks" and user > TIMES.get(name, 1000) * plain["check"] + 0.2
                line += f"  {word} {user:6.2f} s {held:4} MB  {said:24}"
            for split in SPLITS:
                in_one, (took, user, _, said) = of[name, "check"], measured(
                    ["check", file, "--tech", TECHS[kind], "--split", str(split)], program)
                slow |= took > 1.5 * in_one[0] + 0.2 and user > 1.5 * in_one[1] + 0.2
                line += f"  split {split} {min(took / in_one[0], user / max(in_one[1], 0.001)):5.1f}"
            any_slow |= slow
            print(line + "  SLOW" * slow, flush=True)
    print(f"the slowest took {worst:.1f} times as long as boxes that lie apart")
    sys.exit(any_slow)


if __name__ == "__main__":
    if sys.argv[1:2] in (["--help"], ["-h"]):
        print(__doc__.strip())
        sys.exit()
    main()
