#!/usr/bin/env python3
"""Merges what each file imports: imports.py [--check] [CRATE..]

Of the lines `use Rattle.LIBRARY..{..}` and `ghost use Rattle.LIBRARY..{..};` at the head of a file, those of one library
become one tree of names, in lines of at most 120 columns: `use Rattle.plan_model.specs.{Rows.{row_at, firsts}, ..}`. A
file changes only where its lines become fewer, or where one of them is wider. All crates are done if none is named. With --check no file is written:
those that would change are printed, and the status is 1 if there are any.
"""
import re
import sys
from pathlib import Path

CRATES = Path(__file__).resolve().parent.parent / "crates"
WIDTH = 120
LINE = re.compile(r"(ghost )?use (Rattle(?:\.[^\s.{}]+)+)\.\{(.*)\};?$")
# A path in braces, and after it a name, which may be an operator or have an `as`.
BELOW = re.compile(r"([A-Za-z_]\w*(?:\.[A-Za-z_]\w*)*)\.(\S.*)$")


def leaves(path, text):
    """The names of a tree below a path, each with the modules on its way."""
    parts, depth, begin = [], 0, 0
    for at, sign in enumerate(text + ","):
        depth += (sign == "{") - (sign == "}")
        if sign == "," and depth == 0:
            parts.append(text[begin:at].strip())
            begin = at + 1
    found = []
    for part in filter(None, parts):
        head, brace, inner = part.partition(".{")
        below = BELOW.match(part)
        if brace:
            found += leaves((*path, *head.split(".")), inner[:-1])
        elif below:
            found.append((*path, *below[1].split("."), below[2]))
        else:
            found.append((*path, part))
    return found


def in_order(names):
    """Each name once, those of one module together, modules in the order in which they came."""
    first = {}
    for at, name in enumerate(names):
        for length in range(1, len(name)):
            first.setdefault(name[:length], at)
    return sorted(dict.fromkeys(names), key=lambda name: [first[name[:length]] for length in range(1, len(name))])


def shown(tree):
    out = []
    for part, below in tree.items():
        inner = shown(below) if below is not None else None
        out.append(part if not inner else f"{part}.{inner[0]}" if len(inner) == 1 else f"{part}.{{{', '.join(inner)}}}")
    return out


def line_of(names, is_ghost):
    path, tree = [], {}
    for *modules, name in names:
        node = tree
        for module in modules:
            # A module and a name may be spelled alike: the blank keeps them apart.
            node = node.setdefault(module + " ", {})
        node[name] = None
    while len(tree) == 1 and next(iter(tree.values())) is not None:
        (module, tree), = tree.items()
        path.append(module)
    text = f"use {'.'.join(path)}.{{{', '.join(shown(tree))}}}".replace(" .", ".")
    return f"ghost {text};" if is_ghost else text


def lines_of(names, is_ghost):
    lines, now = [], []
    for name in names:
        if now and len(line_of([*now, name], is_ghost)) > WIDTH:
            lines.append(line_of(now, is_ghost))
            now = []
        now.append(name)
    return [*lines, line_of(now, is_ghost)]


def merged(names, is_ghost):
    """The fewest lines for the names of one library, and among these the shortest: all in one tree, or by its rooms."""
    found = []
    for length in (2, 3, 4):
        rooms = {}
        for name in in_order(names):
            rooms.setdefault(name[: min(length, len(name) - 1)], []).append(name)
        found.append([line for room in rooms.values() for line in lines_of(room, is_ghost)])
    return min(found, key=lambda lines: (len(lines), sum(map(len, lines))))


def text_of(old, is_ghost):
    libraries, kept = {}, []
    for line in old:
        found = LINE.match(line)
        if not found or bool(found[1]) != is_ghost:
            kept.append(line)
            continue
        path = tuple(found[2].split("."))
        if path[:2] not in libraries:
            kept.append(path[:2])
        libraries.setdefault(path[:2], []).extend(leaves(path, found[3]))
    return [line for it in kept for line in (merged(libraries[it], is_ghost) if isinstance(it, tuple) else [it])]


def main(words):
    if {"--help", "-h"} & set(words):
        print(__doc__.strip())
        return 0
    is_check, names = "--check" in words, [word for word in words if word != "--check"]
    folders = [CRATES / name for name in names] or sorted(CRATES.iterdir())
    files = [path for folder in folders for room in ("src", "specs", "proofs") for path in folder.glob(f"{room}/**/*")]
    changed = 0
    for path in sorted(path for path in files if path.suffix in (".rt", ".antt")):
        old = path.read_text().splitlines()
        new = text_of(old, path.suffix == ".rt")
        is_wide = any(LINE.match(line) and len(line) > WIDTH for line in old)
        if len(new) < len(old) or is_wide and new != old:
            changed += 1
            print(path.relative_to(CRATES.parent))
            if not is_check:
                path.write_text("\n".join(new) + "\n")
    return int(is_check and changed > 0)


if __name__ == "__main__":
    sys.exit(main(sys.argv[1:]))
