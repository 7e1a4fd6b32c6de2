#!/usr/bin/env python3
"""Breaks wide lines of code and proofs: wide.py [NAME..]

Contracts in .rt files and all lines of .antt files that are wider than 120 columns are broken, in the crates NAME.., or
in all. `rt fmt` then lays the new lines out, and may join some again, so both are called up to three times; what is
still wide is printed, for a hand to break. Only spaces and commas at the ends of lists change. Imports, comments and
the tables of run_cases stay.

A line is broken where it is least nested, before an arrow or an operator rather than between arguments, and not far
from its end.
"""
import re
import subprocess
import sys
from pathlib import Path

HERE = Path(__file__).resolve().parent.parent
MOST, FILL = 120, 118
OPERATORS = {"→", "∙", "×", "⊎", "≡", "≢", "++", "&&", "||", "↔", "+ℤ", "-ℤ", ">>="}
# A word that keeps what comes after it on its line, and one that stays on the line of what is before it.
KEEPS_NEXT = {"let", "record", "λ", "|", "if", "then", "else", "abbrev", "pub", "data", "elim", "omega", "not", "as"}
KEEPS_NEXT |= {"¬", ":"}
KEEPS_LAST = {"in", ";", "where", "=", ":", "."}
CONTRACT = re.compile(r"(ensures|requires|invariant|decreases|ghost let|ghost \w+:|[→×∙⊎(])")


def worth(before, after, depth):
    """How good a place between two words is."""
    for rank, holds in (
        (9, after == "→"),
        (8, after == "∙" or before == "=" and depth == 0),
        (7, after in ("×", "⊎")),
        (6, before.endswith(";") or before == "↦"),
        (0, before.endswith(",")),
        (5, before.endswith(".")),
        (4, after in ("then", "else", "&&", "||")),
        (3, after in ("≡", "↔", "++")),
    ):
        if holds:
            return rank
    return 1


def places(line):
    """Where a line may be broken: the place of the space, how deep it is nested, and how good it is."""
    found, depth, bound, at = [], 0, [], 0
    while at < len(line):
        sign = line[at]
        if sign == '"':
            at = max(line.find('"', at + 1), at)
        elif sign in "([{":
            depth += 1
        elif sign in ")]}":
            depth -= 1
            bound = [it for it in bound if it <= depth]
        elif sign == "λ":
            bound.append(depth)
        elif sign == "." and bound and bound[-1] == depth and line[at + 1:at + 2] in ("", " "):
            bound.pop()
        elif sign == " " and line[at - 1:at] not in ("", " ") and depth >= 0 and not bound:
            before, after = re.search(r"\S+$", line[:at])[0], re.match(r"\S*", line[at + 1:])[0]
            is_kept = before in KEEPS_NEXT | OPERATORS or before.endswith(("(", "[", "{"))
            is_last = after.split(")")[0] in KEEPS_LAST or after.startswith(("{", "}", "]"))
            if after and not is_kept and not is_last:
                found.append((at, depth, worth(before, after, depth)))
        at += 1
    return found


def where(line):
    """The best place to break a line, if there is one."""
    begin = len(line) - len(line.lstrip(" "))
    found = [it for it in places(line) if it[0] >= begin + 8]

    def cost(place):
        at, depth, good = place
        full = (at - begin) / (FILL - begin)
        return 9 * depth + 14 * max(0.55 - full, 0) - 0.8 * good - 2 * full, -at

    fitting = [it for it in found if it[0] <= FILL]
    return min(fitting, key=cost)[0] if fitting else min(found, default=(None,))[0]


def broken(line):
    """The lines in place of one."""
    begin = len(line) - len(line.lstrip(" "))
    head = line.split()[0]
    lines = []
    while len(line) > FILL:
        at = where(line)
        if at is None:
            break
        lines.append(line[:at].rstrip())
        rest = line[at:].lstrip()
        # What begins with the operator of the line itself goes on below it.
        is_same = head in ("→", "∙") and rest.startswith(f"{head} ")
        line = " " * (begin + (0 if is_same else 4)) + rest
    return [*lines, line]


def is_to_break(file, line):
    text = line.lstrip()
    if len(line) <= MOST or text.startswith(("--", "//", "use ", "pub use ")):
        return False
    return file.suffix == ".antt" or CONTRACT.match(text) is not None


def files_of(crate):
    return [it for part in ("src/**/*.rt", "specs/**/*.antt", "proofs/**/*.antt") for it in sorted(crate.glob(part))]


def narrow(crate):
    """Breaks the wide lines of a crate, and tells whether there were any."""
    is_changed = False
    for file in files_of(crate):
        old = file.read_text().split("\n")
        new = [it for line in old for it in (broken(line) if is_to_break(file, line) else [line])]
        if new != old:
            file.write_text("\n".join(new))
            is_changed = True
    return is_changed


def main(names):
    crates = [HERE / "crates" / name for name in names] or sorted((HERE / "crates").iterdir())
    for crate in crates:
        if crate.name == "run_cases":
            continue
        for _ in range(3):
            if not narrow(crate) or subprocess.run(["rt", "fmt"], cwd=crate, check=False).returncode:
                break
        for file in files_of(crate):
            for number, line in enumerate(file.read_text().split("\n"), 1):
                if len(line) > MOST:
                    print(f"{file.relative_to(HERE)}:{number}: {len(line)} columns")


if __name__ == "__main__":
    if sys.argv[1:2] in (["--help"], ["-h"]):
        print(__doc__.strip())
    else:
        main(sys.argv[1:])
