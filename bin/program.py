"""What the scripts beside this file share: finding and running the program, and reading the report of its passes.

The program is `sticks` beside this file, or what the option --program names. Where that is bin/sticks or bin/try of a
checkout, it is first asked to build what it runs, so that a build is seen, and the built program is run.
"""
import re
import subprocess
import sys
from dataclasses import dataclass, field
from pathlib import Path

HERE = Path(__file__).resolve().parent
PASS = re.compile(r"pass (\d+) ([xy]) edges (\d+) backward (\d+) rounds (\d+)")
CYCLE = re.compile(r"pass (\d+) ([xy]) unsatisfiable length (\d+)")
CELL = re.compile(r"cell (\w+) size (\d+) kept (\d+)")
STEP = re.compile(r"(\S+) -> (\S+) (-?\d+) (\w+)")


class Refused(Exception):
    """What a script tells in one line; it ends with status 1, or with that of the program where there is one."""

    def __init__(self, told, status=1):
        super().__init__(told)
        self.status = status


@dataclass
class Ran:
    """What a run of the program came to: its status, its output, and what it told on standard error."""

    status: int
    output: str
    told: str


@dataclass
class Step:
    """An inequality of a path or a cycle: `high` lies at least `length` past `low`, and why."""

    low: str
    high: str
    length: int
    why: str


@dataclass
class Cell:
    """A cell in a pass: its size on the axis, its pairs, and the critical path from the origin to its far border."""

    name: str
    size: int
    kept: int
    path: list = field(default_factory=list)


@dataclass
class Pass:
    """A pass of a report: its numbers and its cells; or, in place of these, the steps of a cycle and their sum."""

    number: int
    axis: str
    edges: int = 0
    backward: int = 0
    rounds: int = 0
    cells: list = field(default_factory=list)
    cycle: list = field(default_factory=list)
    excess: int = 0


def add_program(parser):
    """Gives a parser of words the option --program."""
    parser.add_argument("--program", metavar="PATH", help="the program to run, if not sticks beside this script")


class Program:
    """The program, found and built."""

    def __init__(self, path=None):
        found = Path(path) if path else HERE / "sticks"
        if not found.is_file():
            raise Refused(f"{found}: there is no such program")
        self.path = found.absolute()
        real = found.resolve()
        if real.name in ("sticks", "try") and (real.parent.parent / "crates.txt").is_file():
            # What a build tells goes to standard error at once.
            built = self._start([real, "--build"], stdout=subprocess.PIPE)
            if built.returncode:
                raise Refused(f"{found}: it could not be built", built.returncode)
            self.path = Path(built.stdout.decode().rstrip("\n"))

    def run(self, *words):
        """Runs it with these words, on nothing as standard input."""
        ran = self._start([self.path, *words], stdout=subprocess.PIPE, stderr=subprocess.PIPE)
        return Ran(ran.returncode, ran.stdout.decode(errors="replace"), ran.stderr.decode(errors="replace"))

    @staticmethod
    def _start(words, **streams):
        try:
            return subprocess.run([str(it) for it in words], stdin=subprocess.DEVNULL, check=False, **streams)
        except OSError as it:
            raise Refused(f"{words[0]}: {it.strerror}") from it


def read_report(text):
    """Gives the passes of a report, in order; a cycle, if there is one, is that of the last of them.

    In front of it may stand what bin/try and bin/sticks tell of their builds, on the same stream.
    """
    passes, told = [], ""
    for line in text.splitlines():
        if found := PASS.fullmatch(line):
            number, axis, *counts = found.groups()
            passes.append(Pass(int(number), axis, *map(int, counts)))
        elif found := CYCLE.fullmatch(line):
            passes.append(Pass(int(found[1]), found[2], excess=int(found[3])))
        elif passes and (found := CELL.fullmatch(line)):
            passes[-1].cells.append(Cell(found[1], int(found[2]), int(found[3])))
        elif passes and (found := STEP.fullmatch(line)):
            here = passes[-1]
            if not here.excess and not here.cells:
                raise Refused(f"no report of passes: '{line[:60]}' stands before a cell")
            steps = here.cycle if here.excess else here.cells[-1].path
            steps.append(Step(found[1], found[2], int(found[3]), found[4]))
        elif not passes and line.startswith(("try: ", "sticks: ")):
            told = line
        else:
            raise Refused(f"no report of passes: it has the line '{line[:60]}'")
    if told and not passes:
        raise Refused(f"no report of passes: it has the line '{told[:60]}'")
    return passes


def last_passes(passes):
    """The last pass that was made on each axis, by its axis."""
    return {it.axis: it for it in passes if not it.excess}


def sizes(passes):
    """The width and the height of each cell after all passes, by its name, in the order of the report."""
    ends = last_passes(passes)
    high = {it.name: it.size for it in ends["y"].cells} if "y" in ends else {}
    return {it.name: (it.size, high.get(it.name)) for it in ends["x"].cells} if "x" in ends else {}


def read_text(path, encoding="utf-8"):
    """The text of a file."""
    try:
        return Path(path).read_text(encoding=encoding)
    except OSError as it:
        raise Refused(f"{path}: {it.strerror}") from it
    except UnicodeDecodeError as it:
        raise Refused(f"{path}: it has bytes that are no {encoding.upper()}") from it


def status_of(name, main, words):
    """Runs a script's main function, which takes its words and gives its status, and tells what refuses them."""
    try:
        return main(words)
    except Refused as it:
        print(f"{name}: {it}", file=sys.stderr)
        return it.status
    except BrokenPipeError:
        return 1
    except OSError as it:
        print(f"{name}: {it.filename or 'standard output'}: {it.strerror}", file=sys.stderr)
        return 1


def begin(name, main):
    """Runs a script by the words that it was started with."""
    sys.exit(status_of(name, main, sys.argv[1:]))
