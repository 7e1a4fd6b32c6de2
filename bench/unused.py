#!/usr/bin/env python3
"""Lists what nothing cites: unused.py [CRATE..]

A definition of specs/ or a lemma of proofs/ is listed where its name, or of a type none of its cases, stands in no other
line of code, definition, proof or document; an import alone is no citation. What is cited by such a one alone shows once
that is gone. Files Worked.., which check definitions by their values, are left out. The status is 1 where any is listed.
"""
import re
import sys
from collections import Counter
from pathlib import Path

TOP = Path(__file__).resolve().parent.parent
WORD = re.compile(r"[^\s(){}\[\],;.`\"]+")
BEGIN = re.compile(r"(?:(?:pattern|unfoldable|abbrev|pub) )*(?:(record|data) )?([A-Za-z][\w'→-]*) (?=[:({]).*:")
IMPORT = re.compile(r"\s*(?:pub |ghost |unfoldable )*use ")
ANSWERS = ("Answers.antt", "Invariants.antt", "Proof.antt", "Lib.antt")


def words_of(lines):
    return [word for line in lines if not line.lstrip().startswith(("--", "//")) and not IMPORT.match(line)
            for word in WORD.findall(line)]


def declarations(lines):
    """The first line, its number, the type's kind if it is one, the name and the lines of each declaration at the left edge."""
    found, own = [], None
    for at, line in enumerate(lines):
        if not line or line[0].isspace() or line[0] in "})":
            own is None or own[3].append(line)
        elif own and line.split()[0] == own[2]:
            own[3].append(line)
        elif not line.startswith("unfolding"):
            begin = None if line.startswith(("--", "module ", "mutual")) else BEGIN.match(line)
            own = (at + 1, begin[1], begin[2], [line]) if begin else None
            found += [own] if own else []
    return found


def main(names):
    if {"--help", "-h"} & set(names):
        print(__doc__.strip())
        return 0
    texts = {path: path.read_text().splitlines() for folder in (TOP / "crates").iterdir()
             for room in ("src", "specs", "proofs") for path in folder.glob(f"{room}/**/*") if path.suffix in (".rt", ".antt")}
    cited = Counter(word for lines in texts.values() for word in words_of(lines))
    cited.update(word for path in [TOP / "README.md", *(TOP / "docs").glob("*.md")]
                 for word in re.findall(r"[\w'→-]+", path.read_text()))
    listed = 0
    for path, lines in sorted(texts.items()):
        crate = path.relative_to(TOP / "crates").parts[0]
        if path.suffix == ".rt" or path.name in ANSWERS or path.name.startswith("Worked") or names and crate not in names:
            continue
        for number, kind, name, own in declarations(lines):
            inside = Counter(words_of(own))
            cases = [found[1] for found in (re.match(r"\s+(\S+) :", line) for line in own[1:]) if found and kind == "data"]
            if all(cited[it] == inside[it] for it in [name, *cases]):
                listed += 1
                print(f"{path.relative_to(TOP)}:{number}: {name}")
    return int(listed > 0)


if __name__ == "__main__":
    sys.exit(main(sys.argv[1:]))
