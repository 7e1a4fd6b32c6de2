#!/usr/bin/env python3
"""Tries each fault of the manual's tables of faults, and each repair: faults.py [PROGRAM]

PROGRAM is the built program, bin/sticks of this checkout if none is given. A fault has to be refused with the number of
its table and with its KIND; a repaired text has to be taken. What is in the way of whole texts is tried beside. What is
otherwise is told, and the status is 1.
"""
import os, re, subprocess, sys, tempfile
from pathlib import Path

HERE = Path(__file__).resolve().parent.parent
MANUAL = HERE / "docs/FORMATS.md"
NMOS = HERE / "examples/nmos.toml"


def parts(text):
    """The frames and tables of the manual's section on faults: for each table its frame, if it has one, and its rows of
    cells.
    """
    section = text[text.index("\n## Faults and their repair\n") : text.index("\n## Limits\n")]
    frame, rows, found = None, [], []
    for line in [*section.split("\n"), ""]:
        if line.startswith("    "):
            frame = [*(frame or []), line[4:]]
        elif line.startswith("| `"):
            rows.append([it.strip().strip("`") for it in re.split(r"(?<!\\)\|", line)[1:-1]])
        elif rows:
            found.append((frame, rows))
            frame, rows = None, []
    return found


def with_key(key_line):
    """The technology of examples/nmos.toml, with this line for one of its keys, or beside the others of its table, or
    without the key.
    """
    left_out = key_line.startswith("# no ")
    key, _, number = (key_line[5:] if left_out else key_line).partition(" = ")
    table, _, name = key.rpartition(".")
    lines, here, is_new = [], "", True
    for line in NMOS.read_text(encoding="utf-8").splitlines():
        head = re.fullmatch(r"\[(\w+)\]", line)
        here = head[1] if head else here
        if here == table and line.split(" = ")[0] == name:
            is_new = False
            lines += [] if left_out else [f"{name} = {number}"]
        else:
            lines.append(line)
    if is_new:
        lines.insert(lines.index(f"[{table}]") + 1, f"{name} = {number}")
    return "\n".join(lines) + "\n"


class Trials:
    def __init__(self, program, folder):
        self.program, self.folder, self.count, self.wrong = program, folder, 0, 0

    def answer(self, verb, text, tech):
        """The status of the program on a text and a technology, and the first line that it says."""
        (self.folder / "text").write_text(text, encoding="utf-8")
        (self.folder / "tech").write_text(tech, encoding="utf-8")
        words = [str(self.program), verb, "text", "--tech", "tech"]
        ran = subprocess.run(words, cwd=self.folder, stdin=subprocess.DEVNULL, stdout=subprocess.DEVNULL,
                             stderr=subprocess.PIPE, text=True, timeout=60)
        return ran.returncode, (ran.stderr.splitlines() or [""])[0]

    def one(self, what, kind, number, broken, repaired, verb="compact"):
        """Tries a fault and its repair, each a text and a technology; no fault of kind may be left of the repaired one.
        """
        self.count += 1
        status, line = self.answer(verb, *broken)
        after, left = self.answer(verb, *repaired)
        if status != number or kind not in line.split() or after not in (0, 13):
            self.wrong += 1
            print(f"{kind}, {what}: {status} '{line}', repaired {after} '{left}'")


def tables(trials, tech):
    lines, grids, technologies, cif = parts(MANUAL.read_text(encoding="utf-8"))
    for number, (frame, rows) in [(7, lines), (8, grids)]:
        filled = lambda it: "\n".join(frame).replace("HERE", it.replace(" / ", "\n")) + "\n"
        for kind, broken, repaired, _ in rows:
            trials.one(broken, kind, number, (filled(broken), tech), (filled(repaired), tech))
    design = "sticks 1\ncell c\njoint a metal 0 0\nend\ngrid\nrow c\nend\n"
    for kind, broken, repaired, _ in technologies[1]:
        trials.one(broken, kind, 6, (design, with_key(broken)), (design, with_key(repaired)))
    for kind, broken, repaired in cif[1]:
        trials.one(broken, kind, 12, (broken, tech), (repaired, tech), verb="check")


def long_ones(trials, tech):
    grid = "grid\nrow c0\nend\n"
    cells = lambda count: "sticks 1\n" + "".join(f"cell c{k}\nend\n" for k in range(count)) + grid
    trials.one("cells", "TooManyCells", 7, (cells(257), tech), (cells(256), tech))
    chain = (lambda deep: "sticks 1\ncell c0\nend\n"
             + "".join(f"cell c{k}\nuse u c{k - 1} 0 0\nend\n" for k in range(1, deep)) + grid)
    trials.one("uses", "UseDepth", 7, (chain(17), tech), (chain(16), tech))
    trials.one("end", "Unended", 7, (cells(1)[: -len("end\n")], tech), (cells(1), tech))


def whole_texts(trials, tech):
    """What the manual says of whole texts: byte order marks, a single `-`, and a text of the other kind."""
    design = "sticks 1\ncell c\njoint a metal 0 0\nend\ngrid\nrow c\nend\n"
    masks = "L NM; B 1800 1800 0 0; E"
    trials.one("a byte order mark", "BadByte", 7, ("\ufeff" + design, tech), (design, "\ufeff" + tech))
    trials.one("a design, to check", "NoEnd", 12, (design, tech), ("\ufeff" + masks, tech), verb="check")
    trials.one("a design, to breaks", "NoEnd", 12, (design, tech), (masks, tech), verb="breaks")
    trials.one("a design with a capital, to extract", "BadCommand", 12, ("# A\n" + design, tech), (masks, tech),
               "extract")
    trials.one("masks, to compact", "BadByte", 7, ("DS 1 75 1;\n", tech), (design, tech))
    for name, wanted in (("-", (3, "sticks: cannot read design\n")), ("/dev/stdin", (0, ""))):
        words = [str(trials.program), "fmt", name]
        ran = subprocess.run(words, cwd=trials.folder, input=design, capture_output=True, text=True, timeout=60)
        trials.count += 1
        if (ran.returncode, ran.stderr) != wanted:
            trials.wrong += 1
            print(f"{name} as a file: {ran.returncode} '{ran.stderr}'")


def main(words):
    if words[:1] in (["--help"], ["-h"]):
        print(__doc__.strip())
        return 0
    program = Path(words[0] if words else HERE / "bin/sticks").resolve()
    if not os.access(program, os.X_OK):
        raise SystemExit(f"{program} is no program")
    tech = NMOS.read_text(encoding="utf-8")
    with tempfile.TemporaryDirectory() as folder:
        trials = Trials(program, Path(folder))
        tables(trials, tech)
        long_ones(trials, tech)
        whole_texts(trials, tech)
    print(f"{trials.count} faults tried, {trials.wrong} not as the manual says")
    return 1 if trials.wrong else 0


if __name__ == "__main__":
    sys.exit(main(sys.argv[1:]))
