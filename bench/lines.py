#!/usr/bin/env python3
"""Counts what stands in the crates: lines.py [FOLDER]

For each crate its lines of code, tests, definitions and proofs and its must-fail edits; then the sums, how many of all
lines are imports, and how many are wider than 120 columns; the longest chain of crates, and the chain on which most
lines stand, which is what a first proof cannot do side by side. FOLDER is a checkout, this one if none is given.
"""
import glob, os, re, sys

TOP = sys.argv[1] if len(sys.argv) > 1 else os.path.join(os.path.dirname(os.path.abspath(__file__)), "..")


def lines_of(pattern):
    return {path: open(path, encoding="utf-8").read().splitlines() for path in glob.glob(pattern, recursive=True)}


def code_and_tests(crate):
    code = tests = 0
    files = lines_of(f"{TOP}/crates/{crate}/src/**/*.rt")
    roots = [lines for path, lines in files.items() if os.path.basename(path) in ("lib.rt", "main.rt")]
    modules = {lines[k + 1][len("mod "):-1] for lines in roots for k in range(len(lines) - 1)
               if lines[k] == "#[cfg(test)]" and lines[k + 1].endswith(";")}
    for path, lines in files.items():
        if os.path.relpath(path, f"{TOP}/crates/{crate}/src").removesuffix(".rt").split(os.sep)[0] in modules:
            tests += len(lines)
            continue
        begin = next((k for k in range(len(lines) - 1) if lines[k] == "#[cfg(test)]"
                      and lines[k + 1].startswith("mod tests {")), len(lines))
        code += begin
        tests += len(lines) - begin
    return code, tests


def count(crate, room):
    return sum(len(lines) for lines in lines_of(f"{TOP}/crates/{crate}/{room}/**/*.antt").values())


def crates():
    found = {}
    for line in open(f"{TOP}/crates.txt", encoding="utf-8"):
        if line.strip() and not line.startswith("#"):
            name, _, deps = line.partition(":")
            found[name.split()[0]] = deps.split()
    return {name: [dep for dep in deps if dep in found] for name, deps in found.items()}


def heaviest(name, stands_on, weight, known):
    """The chain down from a crate that weighs most, with its weight."""
    if name not in known:
        below = max((heaviest(dep, stands_on, weight, known) for dep in stands_on[name]), default=(0, []))
        known[name] = (below[0] + weight(name), below[1] + [name])
    return known[name]


def main():
    stands_on = crates()
    rows = {}
    for name in stands_on:
        code, tests = code_and_tests(name)
        edits = len(glob.glob(f"{TOP}/crates/{name}/must-fail/*.edit"))
        rows[name] = (code, tests, count(name, "specs"), count(name, "proofs"), edits)
    print("%-14s %7s %7s %12s %7s %7s %6s" % ("crate", "code", "tests", "definitions", "proofs", "lines", "edits"))
    for name, (code, tests, specs, proofs, edits) in sorted(rows.items()):
        print("%-14s %7d %7d %12d %7d %7d %6d" % (name, code, tests, specs, proofs, code + tests + specs + proofs,
                                                  edits))
    sums = [sum(row[k] for row in rows.values()) for k in range(5)]
    print("%-14s %7d %7d %12d %7d %7d %6d" % ("all", *sums[:4], sum(sums[:4]), sums[4]))
    texts = [line for name in stands_on for kind in ("rt", "antt") for room in ("src", "specs", "proofs")
             for lines in lines_of(f"{TOP}/crates/{name}/{room}/**/*.{kind}").values() for line in lines]
    imports = sum(bool(re.match(r"\s*(pub )?(ghost )?(use|mod|pub mod) ", line)) for line in texts)
    print("definitions and proofs: %d; imports: %d; wider than 120 columns: %d"
          % (sums[2] + sums[3], imports, sum(len(line) > 120 for line in texts)))
    known, long = {}, {}
    lines = max(heaviest(name, stands_on, lambda crate: sum(rows[crate][:4]), known) for name in stands_on)
    count_of = max(heaviest(name, stands_on, lambda crate: 1, long) for name in stands_on)
    print("the chain with most lines: %d: %s" % (lines[0], " ".join(lines[1])))
    print("the chain of most crates: %d: %s" % (count_of[0], " ".join(count_of[1])))


if __name__ == "__main__":
    if sys.argv[1:2] in (["--help"], ["-h"]):
        print(__doc__.strip())
        sys.exit()
    main()
