#!/usr/bin/env python3
"""Holds what the documents cite against the tree: docs.py [FOLDER]

In docs/THEOREM.md, PROOFS.md, DEFINITIONS.md, ARCHITECTURE.md and CONTRIBUTING.md of FOLDER, this checkout if none is
given, it looks at
  words in code, and words with _ outside of it
                     each has to stand as a word of the crates' code, definitions, proofs or edits (comments aside), of
                     the examples, or as a file's name; in the section of a crate, in that crate, in one on which it
                     stands, or in one that the paragraph names
  files              each has to be there, from the top or in the crate of the section, or in one that the paragraph
                     names
  names after a file, as `specs/Kept.antt` (`Shadows`, `IsKept`), up to a word `over`
                     each has to begin a line of that file
  names in brackets after a name, as `put` [ok, err], or alone
                     each has to be a clause of a function of that name, or a field or case of that definition; alone,
                     of one in the crate of the section, and without a section of any
  heads of sections  each of one small word has to be a crate
In these, the other documents of docs/ and those at the top it looks at
  links              each to a file has to lead to one, and after a # to a head of a section in it
Each name that is gone is told with its file and line, and the status is 1; else one line counts what was held.
"""
import re
import sys
from pathlib import Path

DOCUMENTS = [f"docs/{name}.md" for name in ("THEOREM", "PROOFS", "DEFINITIONS", "ARCHITECTURE", "CONTRIBUTING")]
WORD = re.compile(r"[A-Za-z_][A-Za-z0-9_]*(?:-[A-Za-z0-9_]+)*")
SPAN = re.compile(r"(?<!`)`([^`]+)`(?!`)")
ENDS = "rt|antt|md|toml|py|sticks|cif|svg|edit|tech|lyp|report|txt|1"
FILE = re.compile(rf"(?<![\w/.-])(?:(?:[\w.-]+/)*[\w-]+\.(?:{ENDS})\b|(?:[\w.-]+/)+\w*)")
# Where a function, a type, a record or a data begins, and where a clause, a field or a case stands.
BEGINS = {
    "rt": re.compile(r"\b(?:fn|struct|enum|trait|impl) (?:<[^>]*> )?(\w+)").search,
    "antt": re.compile(r"\s*(?:abbrev )?(?:pub )?(?:record|data) ([\w-]+)").match,
}
PART = {
    "rt": re.compile(r"\s*(?:(?:requires|ensures) (?=\w+ \{)|(?:pub )?(?:ghost )?(?=\w+:))(\w+)").match,
    "antt": re.compile(r"\s+(?:pub )?([\w-]+) :").match,
}
# What is no name of this tree: lines that begin with a command, words that stand for others in a form, and the kit's
# pages.
COMMANDS = ("rt", "git", "nice", "grep", "python3")
NOT_HERE = re.compile(r"(?:\]\(|https?:|KIT/|\.\./)\S*$")
FREE = {"FROM", "TO", "LEN", "WHY", "NAME", "out/", "START-HERE.md", "CONTRACTS.md", "ANTT.md", "FIRST_PROOFS.md"}


def plain(text, comment):
    """A text without its comments."""
    return re.sub(rf"{comment}[^\n]*", "", text)


def words_of(text):
    """The words of a text, those with hyphens as a whole and in parts."""
    found = set(WORD.findall(text))
    return found | {part for word in found if "-" in word for part in word.split("-")}


class Tree:
    """What stands in a checkout: the words of each file, and the parts (clauses, fields, cases) of each name, crate by
    crate.
    """

    def __init__(self, top):
        self.top, self.begun, self.parts, self.known, self.paths = top, {}, {}, set(FREE), {"crates"}
        lines = [re.split(r"[ :]+", line) for line in (top / "crates.txt").read_text(encoding="utf-8").splitlines()
                 if re.match(r"[a-z]", line)]
        self.below = {crate: below for crate, *below in lines}
        self.crates = list(self.below)
        self.words = {crate: set() for crate in self.crates}
        for crate in self.crates:
            for room, kind in (("src", "rt"), ("specs", "antt"), ("proofs", "antt"), ("must-fail", "edit")):
                for path in sorted((top / "crates" / crate / room).rglob(f"*.{kind}")):
                    self.take(crate, path, kind)
        for path in [*top.glob("examples/**/*"), *top.glob("bin/*"), *top.glob("bench/*.py"), *top.glob("docs/*"),
                     *top.glob("*"), top / ".ci/run"]:
            self.add_path(path)
            if path.parent.name == "examples" or path.name in ("sticks", "crates.txt"):
                self.known |= words_of(path.read_text(encoding="utf-8")) if path.is_file() else set()

    def add_path(self, path):
        """The names of a file and of its folders."""
        within = path.relative_to(self.top)
        self.paths |= {it.as_posix() for it in (within, *within.parents)}
        self.known |= {path.name, path.stem, *within.parts}

    def take(self, crate, path, kind):
        self.add_path(path)
        text = plain(path.read_text(encoding="utf-8"), "--" if kind == "antt" else "//")
        self.words[crate] |= words_of(text) | {path.name, path.stem, *path.relative_to(self.top).parts}
        if kind == "antt":
            self.begun[path.relative_to(self.top).as_posix()] = set(
                re.findall(r"(?m)^\s*(?:(?:abbrev|pub|record|data|unfoldable) )*([\w-]+)", text))
        if "proofs" in path.parts or kind == "edit":
            return
        name = None
        for line in text.split("\n"):
            begun, part = BEGINS[kind](line), PART[kind](line)
            if kind == "antt" and re.match(r"\S", line):
                name = None
            name = begun[1] if begun else name
            if name and part:
                self.parts.setdefault(name, {}).setdefault(crate, set()).add(part[1])

    def knows(self, word, section, named):
        """Whether a word stands in the crate of the section, in one right below it or in one that is named, or without
        a section in any.
        """
        homes = [section, *self.below[section], *named] if section else self.crates
        return word in self.known or any(word in self.words.get(crate, ()) for crate in homes)

    def part_names(self, crate=None):
        """All parts of the names of a crate, or of all crates."""
        return {part for of in self.parts.values() for where, those in of.items() if crate in (None, where)
                for part in those}


class Document:
    def __init__(self, tree, name):
        self.tree, self.name, self.gone, self.held = tree, name, set(), 0
        text = (tree.top / name).read_text(encoding="utf-8")
        # Indented blocks after an empty line are examples, drawings and commands.
        self.text = re.sub(r"(?<=\n\n)(?: {4}.*\n|\n(?= {4}))+", lambda it: re.sub(r"\S", " ", it[0]), text)

    def hold(self, place, what, is_there):
        self.held += 1
        if not is_there:
            self.gone.add((self.text.count("\n", 0, place) + 1, what))

    def paragraphs(self):
        """Each paragraph, point or row with its place, the crate of its section, and the crates that it names."""
        section = None
        for it in re.finditer(r"(?ms)^(?=\S| +-).*?(?=\n\||\n *- |\n\n|\Z)", self.text):
            head = re.match(r"## ([a-z0-9_]+)$", it[0])
            if head:
                self.hold(it.start(), head[1], head[1] in self.tree.crates)
            if it[0].startswith("## "):
                section = head[1] if head and head[1] in self.tree.crates else None
            yield it.start(), it[0], section, [word for word in WORD.findall(it[0]) if word in self.tree.crates]

    def files(self, path, section, named):
        """The places at which a file may stand."""
        path = path.rstrip("/")
        homes = [section, *named] if section else self.tree.crates
        for home in ["", *(f"crates/{crate}" for crate in homes if crate), "crates"]:
            for room in ("", "specs", "proofs", "src", "must-fail"):
                for end in ("", ".antt"):
                    found = Path(home, room, path + end).as_posix()
                    if found in self.tree.paths:
                        yield found

    def check(self):
        for place, text, section, named in self.paragraphs():
            self.check_files(place, text, section, named)
            self.check_words(place, text, section, named)
            self.check_named(place, text, section, named)
            self.check_parts(place, text, section)

    def check_files(self, place, text, section, named):
        for it in FILE.finditer(text):
            if not NOT_HERE.search(text[: it.start()]):
                self.hold(place + it.start(), it[0], it[0] in FREE or any(self.files(it[0], section, named)))

    def check_words(self, place, text, section, named):
        for it in SPAN.finditer(text):
            span = re.sub(r"--[\w-]+", " ", FILE.sub(" ", it[1]))
            if span.split() and span.split()[0] in COMMANDS:
                continue
            for word in WORD.findall(span):
                self.hold(place + it.start(), word, self.tree.knows(word, section, named))
        beside = SPAN.sub(lambda it: " " * len(it[0]), text)
        for it in re.finditer(r"(?<![\w./-])[a-z0-9]+_\w+\b(?![./])", beside):
            self.hold(place + it.start(), it[0], self.tree.knows(it[0], section, named))

    def check_named(self, place, text, section, named):
        """Names in brackets after a file, or one after the other after a file of proofs/."""
        for it in re.finditer(r"([\w/]+\.antt)`?\s*\(([^()]*)\)|`(proofs/\w+\.antt)`((?:,?\s+(?:and\s+)?`[\w-]+`)+)",
                              text):
            within = {word for file in self.files(it[1] or it[3], section, named)
                      for word in self.tree.begun.get(file, ())}
            group = 2 if it[1] else 4
            for name in SPAN.finditer(re.split(r"[,(;]?\s*\bover\b", it[group])[0]):
                for word in WORD.findall(name[1]):
                    self.hold(place + it.start(group) + name.start(), f"{word} in {it[1] or it[3]}", word in within)

    def check_parts(self, place, text, section):
        """Names in brackets after names in code, or alone."""
        for it in re.finditer(r"((?:`[\w:.-]+`(?:,| and|/)?\s+)*)\[(\w+(?:[,;]\s+\w+)*)\](?!\()", text):
            names = [name.split("::")[-1] for name in SPAN.findall(it[1])]
            of = [self.tree.parts[name] for name in names if name in self.tree.parts]
            within = {part for one in of for part in one.get(section, set().union(*one.values()))}
            if not names:
                within = self.tree.part_names(section if section else None)
            for part in re.split(r"[,;]\s+", it[2]):
                self.hold(place + it.start(2), f"[{part}] of {names[-1] if names else section}", part in within)


def heads(text):
    """The heads of the sections of a text, as links name them."""
    found = re.findall(r"(?m)^#+ (.*)", re.sub(r"(?ms)^```.*?^```$", "", text))
    return {re.sub(r"[^\w -]", "", head.lower()).replace(" ", "-") for head in found}


def links(top):
    """Gives each link of the documents to a file, with its document, its line, and whether it leads to something."""
    for path in sorted([*top.glob("*.md"), *top.glob("docs/*.md")]):
        text = path.read_text(encoding="utf-8")
        for it in re.finditer(r"\]\(([^()\s]+)\)|\bsrc=\"([^\"]+)\"", text):
            name, _, head = (it[1] or it[2]).partition("#")
            if ":" not in name:
                target = path.parent / name if name else path
                there = target.exists() and (not head or head in heads(target.read_text(encoding="utf-8")))
                yield path.relative_to(top).as_posix(), text.count("\n", 0, it.start()) + 1, it[1] or it[2], there


def main(words):
    if words[:1] in (["--help"], ["-h"]) or len(words) > 1:
        print(__doc__.strip())
        return 0 if len(words) == 1 else 2
    tree = Tree(Path(words[0]) if words else Path(__file__).resolve().parent.parent)
    held = gone = 0
    for name in DOCUMENTS:
        document = Document(tree, name)
        document.check()
        held, gone = held + document.held, gone + len(document.gone)
        for line, what in sorted(document.gone):
            print(f"{name}:{line}: {what}")
    for name, line, link, there in links(tree.top):
        held, gone = held + 1, gone + (not there)
        if not there:
            print(f"{name}:{line}: the link {link}")
    print(f"{held} names and links held, {gone} gone")
    return 1 if gone else 0


if __name__ == "__main__":
    sys.exit(main(sys.argv[1:]))
