"""What is wrong with the words of a command, with its files, or with how much there is of them."""
import difflib
import os
import re
from pathlib import Path

from program import HERE

# Each command: its operand, and its options; those in NEEDED have to be there.
COMMANDS = {
    "compact": ("DESIGN", ("tech", "passes", "split")),
    "slack": ("DESIGN", ("tech", "passes")),
    "jog": ("DESIGN", ("tech", "script", "passes")),
    "edit": ("DESIGN", ("tech", "script", "passes")),
    "check": ("CIF", ("tech", "split")),
    "breaks": ("CIF", ("tech", "most")),
    "extract": ("CIF", ("tech",)),
    "nets": ("DESIGN", ("tech",)),
    "fmt": ("DESIGN", ()),
    "bench": ("N", ()),
}
NEEDED = ("tech", "script")
VALUE = {"tech": "FILE", "script": "FILE", "passes": "LIST", "split": "N", "most": "N"}
MOST = {"design": 1_048_576, "technology": 65_536, "script": 65_536, "cif": 67_108_864}
DESIGN, TECHNOLOGY, CIF, SVG = "a design in sticks", "a technology", "CIF", "a picture"


def near(word, words):
    """Words like this one, as a question, or nothing."""
    found = difflib.get_close_matches(word, list(words), 1, 0.6)
    return f"; did you mean '{found[0]}'?" if found else ""


def form_of(command):
    operand, options = COMMANDS[command]
    return " ".join(
        [command, operand, *(f"--{it} {VALUE[it]}" if it in NEEDED else f"[--{it} {VALUE[it]}]" for it in options)])


def kind_of(text):
    """What a text looks like, by its first words; nothing where it looks like none of these."""
    head = text[:4096].removeprefix("\ufeff")
    lines = [it for it in (re.sub(r"#.*", "", it).strip() for it in head.split("\n")) if it]
    if lines and re.match(r"(sticks|cell)\b", lines[0]):
        return DESIGN
    if any(re.match(r"(version|unit|\[?(width|spacing|extension|cut))\b[\].\w ]*(=|$)", it) for it in lines[:3]):
        return TECHNOLOGY
    if re.match(r"\s*<(\?xml|svg)", head):
        return SVG
    if re.match(r"\s*(\([^()]*\)\s*;?\s*)*(DS\s*\d|L\s*[A-Z0-9]{1,4}\s*;|B\s*-?\d|C\s*\d|9\s+\w|E\s*$)", head):
        return CIF
    return ""


class Call:
    """The words of a command, read as the program reads them: its name, its operand, its options, and what is wrong
    with them.
    """

    def __init__(self, words):
        self.command = words[0] if words else ""
        self.operand, self.options, self.faults = None, {}, []
        if self.command in COMMANDS:
            self._read(words[1:])
        elif not words:
            self.faults.append(f"a command is missing: the first word is one of {', '.join(COMMANDS)}")
        elif self.command.startswith("-"):
            self.faults.append(f"word 1, '{self.command}', is no command: the command's name is the first word, and "
                               "options stand behind it")
        else:
            self.faults.append(
                f"word 1, '{self.command}', is none of {', '.join(COMMANDS)}{near(self.command, COMMANDS)}")

    def _read(self, words):
        name, options = COMMANDS[self.command]
        at, only_files = 0, False
        while at < len(words):
            word, place = words[at], at + 2
            at += 1
            if word == "--" and not only_files:
                only_files = True
            elif word.startswith("--") and not only_files:
                option, has_value, value = word[2:].partition("=")
                if option not in options:
                    meant = self._other_option(f"--{option}", place, options)
                    at += (bool(meant or option in VALUE) and not has_value and at < len(words)
                           and not words[at].startswith("-"))
                    continue
                if not has_value:
                    if at == len(words) or words[at].startswith("-") and words[at] != "-":
                        self.faults.append(f"word {place}, '--{option}': its {VALUE[option]} is missing behind it")
                        self.options.setdefault(option, None)
                        continue
                    value = words[at]
                    at += 1
                if option in self.options:
                    self.faults.append(f"word {place}, '--{option}', stands there for a second time; it is given once")
                self.options[option] = value
            elif word.startswith("-") and word != "-" and not only_files:
                at += (bool(self._other_option(word, place, options)) and at < len(words)
                       and not words[at].startswith("-"))
            elif self.operand is not None:
                self.faults.append(f"word {place}, '{word}', is one too many: {self.command} takes one {name}, which "
                                   f"is '{self.operand}'")
            else:
                self.operand = word
        if self.operand is None:
            self.faults.append(f"the {name} is missing behind {self.command}")
        for option in NEEDED:
            if option in options and option not in self.options:
                self.faults.append(f"--{option} {VALUE[option]} is missing")
        self._values()

    def _other_option(self, word, place, options):
        """Tells of a word that is no option of the command; gives the one that is meant, if it is like one of these."""
        name = word.lstrip("-")
        meant = difflib.get_close_matches(name, [it for it in options if it != name], 1, 0.6)
        meant = meant or [it for it in options if name and it.startswith(name)]
        takes = f"takes {', '.join(f'--{it}' for it in options)}" if options else "takes no option"
        hint = f"; did you mean --{meant[0]}?" if meant and name not in VALUE else ""
        self.faults.append(f"word {place}, '{word}', is no option of {self.command}, which {takes}{hint}")
        if hint:
            self.options.setdefault(meant[0], None)
        return hint

    def _values(self):
        passes = self.options.get("passes")
        if passes is not None and not re.fullmatch(r"(?=.*x)(?=.*y)[xy]{1,16}", passes):
            why = ("it has other letters than x and y" if re.search("[^xy]", passes) else "it has more than 16 letters"
                   if len(passes) > 16 else "")
            missing = [it for it in "xy" if it not in passes]
            why = why or f"a pass on {' and on '.join(missing)} is missing"
            self.faults.append(f"--passes '{passes}': {why}; it is a letter for each pass, x or y, 1 to 16, both of "
                               "them among these, as xy or yx")
        count = r"[1-9][0-9]?"
        split = self.options.get("split")
        if split is not None and not (re.fullmatch(count, split) and int(split) <= 64):
            self.faults.append(f"--split '{split}': it is a number from 1 to 64, of three digits at most")
        most = self.options.get("most")
        if most is not None and not (re.fullmatch("[0-9]{1,5}", most) and 1 <= int(most) <= 65_536):
            self.faults.append(f"--most '{most}': it is a number from 1 to 65,536, of five digits at most")
        if (self.command == "bench" and self.operand is not None
            and not (re.fullmatch(count, self.operand) and int(self.operand) <= 64)):
            self.faults.append(
                f"word 2, '{self.operand}', is no N of bench: it is a number from 1 to 64, of three digits at most")

    def path(self, kind):
        """The name of a file: of the design, the technology, the cif or the script."""
        if kind in ("design", "cif"):
            return self.operand or ""
        return self.options.get("tech" if kind == "technology" else "script") or ""

    def text(self, kind):
        """The text of a file, as far as it can be read, and not past what may be read."""
        try:
            with open(self.path(kind), "rb") as file:
                return file.read(MOST[kind] + 1).decode("utf-8", errors="replace")
        except OSError:
            return ""


def known_repair(word):
    """What docs/FORMATS.md says of a kind of fault, or of a status: what to look for, a line that has it, and one that
    has not.
    """
    try:
        text = (HERE.parent / "docs/FORMATS.md").read_text(encoding="utf-8")
    except OSError:
        return None
    begin = text.find("\n## Faults and their repair\n")
    rows = re.findall(rf"^\| `?{re.escape(word)}[ `].*\|$", text[begin : text.find("\n## Limits\n", begin)], re.M)
    if not rows:
        return None
    cells = [re.sub(r"^`([^`]*)`$", r"\1", it.strip()) for it in rows[0].split("|")[2:-1]]
    return (cells[-1] if len(cells) != 2 else "", *cells[:2]) if len(cells) > 1 else (cells[0],)


def repair(word):
    """The lines that tell it."""
    found = known_repair(word)
    if found and found[0]:
        yield f"repair: {found[0]}"
    if found and len(found) == 3 and not found[1].startswith("# no "):
        yield f"for example, in place of '{found[1]}': {found[2]}"


def usage(call):
    yield from call.faults
    if not call.faults:
        yield "a word that is no UTF-8 text is refused, and so are other options than the command's"
    if call.command in COMMANDS:
        yield f"its form: {form_of(call.command)}"
    else:
        yield "bin/sticks --help shows each command with its words"


def cannot_read(call, kind):
    path = call.path(kind)
    operand = f"the {COMMANDS[call.command][0]} of {call.command}"
    where = {"technology": "--tech", "script": "--script"}.get(kind, operand)
    here = Path(path)
    if not path:
        yield f"{where}: the name is empty"
    elif here.is_dir():
        yield f"{where}: '{path}' is a folder, not a file"
    elif here.exists():
        yield (f"{where}: '{path}' is there, but may not be read"
               + ("" if os.access(path, os.R_OK) else " by you: look at its permissions"))
    elif here.is_symlink():
        yield f"{where}: '{path}' is a link to what is not there"
    else:
        names = [it.name for it in here.parent.iterdir()] if here.parent.is_dir() else []
        yield f"{where}: there is no file '{path}'{near(here.name, names)}"
        if path == "-":
            yield "'-' is a name as any other; standard input is the file '/dev/stdin'"
        if not here.parent.is_dir():
            yield f"its folder '{here.parent}' is not there either"


def too_long(call, kind):
    size = Path(call.path(kind)).stat().st_size if Path(call.path(kind)).is_file() else 0
    has = (f"has {size:,} bytes, {size - MOST[kind]:,} more than it may" if size > MOST[kind]
           else "goes on for longer than it may")
    yield f"'{call.path(kind)}' {has}: a {kind} is at most {MOST[kind]:,} bytes long"
    if kind == "cif":
        yield "a CIF text is shorter with symbols that are called"
    if kind == "design":
        yield "a design is shorter without comments, with grids in place of repeated cells, or as two designs"


def too_large(what):
    tells = {
        "items": "the cells that grids name have more than 65,536 items, limits and uses together, each cell counted "
                 "once",
        "boxes": "all instances together have more than 1,048,576 mask boxes",
        "edges": "a pass would list more than 4,194,304 inequalities",
        "extent": "the grids together are wider or higher than 2^30 hundredths of a micron",
    }
    yield tells[what]
    yield from repair("9 `too large: ..")


def other(status):
    names = {1: "1 `out of memory", 4: "4 `cannot write output"}
    yield from repair(names[status])
