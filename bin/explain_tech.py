"""What is wrong with a technology: the line of its text, and the numbers that do not go together."""
import re
import tomllib

from drawn import Technology
from explain_words import CIF, DESIGN, kind_of, near, repair

TABLES = {
    "": ["version", "unit"],
    "width": ["diffusion", "poly", "metal"],
    "spacing": ["diffusion", "poly", "metal", "poly_diffusion", "cut", "cut_channel", "implant_channel"],
    "extension": ["poly", "diffusion", "implant"],
    "cut": ["size", "enclosure"],
}
BURIED = {"extension.buried", "spacing.buried_channel"}
KEYS = [f"{table}.{key}".lstrip(".") for table, keys in TABLES.items() for key in keys]


def key_lines(text):
    """The number and the text of the line of each key, dotted, and of each table's head, in brackets."""
    found, table = {}, ""
    for number, line in enumerate(text.removeprefix("\ufeff").split("\n"), 1):
        if head := re.match(r"\s*\[\s*([^\[\]]+?)\s*\]", line):
            table = plain(head[1])
            found.setdefault(f"[{table}]", (number, line.strip()))
        elif key := re.match(r"\s*([^=#\[\]{}]+?)\s*=", line):
            name = f"{table}.{plain(key[1])}".lstrip(".")
            found.setdefault(name, (number, line.strip()))
            for inner in re.findall(r"[{,]\s*([^=,{}]+?)\s*=", line):
                found.setdefault(f"{name}.{plain(inner)}", (number, line.strip()))
    return found


def plain(key):
    return ".".join(it.strip().strip("\"'") for it in key.split("."))


class Fault:
    def __init__(self, path, text):
        self.path, self.text, self.lines = path, text, key_lines(text)
        try:
            self.numbers = Technology(text)
        except Exception:  # a text that is no TOML has no numbers
            self.numbers = None

    def line(self, key):
        """The line of a key, as FILE:LINE: TEXT, if it is found."""
        return f"{self.path}:{self.lines[key][0]}: {self.lines[key][1]}" if key in self.lines else ""

    def told(self, *keys):
        return [it for it in map(self.line, keys) if it]

    def not_toml(self):
        what = kind_of(self.text)
        if what in (DESIGN, CIF):
            yield f"{self.path} is no technology: it looks like {what}; --tech names a file such as examples/nmos.toml"
            return
        if not self.text.strip():
            yield f"{self.path} has nothing in it that is read"
        if "\ufffd" in self.text:
            number = self.text.count("\n", 0, self.text.index("\ufffd")) + 1
            yield f"{self.path}:{number}: {self.text.split(chr(10))[number - 1].strip()}"
            yield "a byte in this line is no UTF-8"
            return
        try:
            tomllib.loads(self.text)
            yield "its bytes are not UTF-8, or arrays or inline tables in it nest more than 80 deep"
        except ValueError as it:
            told = re.search(r"(.*) \(at (?:line (\d+), column (\d+)|end of document)\)", str(it))
            number = int(told[2]) if told and told[2] else len(self.text.rstrip("\n").split("\n"))
            line = self.text.split("\n")[number - 1].strip()
            yield f"{self.path}:{number}: {line}"
            yield (f"here, at column {told[3] if told and told[3] else 'the end'}, it is no TOML any more: "
                   f"{told[1] if told else it}")
            if re.search(r"=\s*\d+\s*[a-zA-Z]", line):
                yield "write the number alone: lengths are in u"

    def missing(self, key):
        table, _, name = key.rpartition(".")
        yield f"'{key}' is missing: a line '{name} = N'" + (f" under [{table}]" if table else " above the first table")
        head = f"[{table}]"
        if table and head not in self.lines and not any(it.startswith(f"{table}.") for it in self.lines):
            others = [it for it in self.lines if it.startswith("[") and it[1:-1] not in TABLES]
            yield f"the table {head} is not there at all" + near(head, others)
        elif table:
            yield from self.told(head)
        for other in self.lines:
            if other.startswith("[") or other in KEYS or other in BURIED:
                continue
            if other.rpartition(".")[2] == name:
                yield f"{self.line(other)}   stands in another place than {head if table else 'at the top'}"
            elif near(other.rpartition(".")[2], [name]):
                yield f"{self.line(other)}   is that it, misspelt?"
        if key in BURIED:
            yield from self.told("version")
            yield "a technology of version 2 has buried contacts, and this key"

    def wrong_type(self, key):
        yield from self.told(key) or self.told(key.partition(".")[0], f"[{key}]")
        table = key.partition(".")[0]
        if self.numbers and table != key and table in self.numbers.numbers:
            yield f"'{table}' has to be a table, in which '{key}' is an integer; here it is something else"
            return
        value = self.numbers.numbers.get(key) if self.numbers else None
        kind = {float: "a number with a point", str: "a text in quotes", bool: "a truth value",
                list: "an array"}.get(type(value), "no integer")
        yield f"'{key}' has to be an integer; here it is {kind}"

    def unknown(self, key):
        yield from self.told(key) or self.told(f"[{key}]")
        table, _, name = key.rpartition(".")
        if key in BURIED:
            yield f"'{key}' belongs to a technology with buried contacts: 'version = 2', or leave the line out"
        elif table in TABLES and table:
            yield f"'{name}' is no key of [{table}], which has {', '.join(TABLES[table])}{near(name, TABLES[table])}"
        else:
            yield f"'{key}' is no key of a technology{near(key, [*TABLES['cut'], *KEYS, *TABLES])}"
            yield "at the top stand version, unit and the tables [width], [spacing], [extension] and [cut]"

    def range(self, key):
        yield from self.told(key)
        yield ("'version' is 1 or 2" if key == "version"
               else f"'{key}' is a number from 0 to 4096; it is {self.value(key)}")

    def value(self, key):
        return self.numbers[key] if self.numbers else 0

    def sum(self, keys, told):
        yield from self.told(*keys)
        yield told.format(*(self.value(it) for it in keys))

    def odd(self, key):
        yield from self.told(key)
        yield (f"'{key}' has to be even and not 0, it is {self.value(key)}"
               + ("" if key == "unit" else ": places are those of centres, with half of it on either side"))

    def zero(self, key):
        yield from self.told(key)
        yield f"'{key}' has to be at least 1"

    def short_channel(self):
        keys = ["width.poly", "spacing.poly_diffusion", "spacing.diffusion"]
        yield from self.sum(
            keys,
            "the width of poly and its spacing to diffusion, {0} + {1} u, are below the spacing of diffusion, {2} u")

    def short_extension(self):
        for key in ("extension.poly", "extension.diffusion"):
            if self.value(key) <= self.value("spacing.poly_diffusion"):
                yield from self.sum([key, "spacing.poly_diffusion"],
                                    f"'{key}', {{0}} u, has to be more than the spacing of poly to diffusion, {{1}} u")

    def narrow_fet(self):
        for width, key, other in (("diffusion", "extension.poly", "poly"),
                                  ("poly", "extension.diffusion", "diffusion")):
            if self.value(f"width.{width}") + 2 * self.value(key) < self.value(f"width.{other}"):
                keys = [f"width.{width}", key, f"width.{other}"]
                yield from self.sum(
                    keys, f"the {other} of the smallest transistor would be {{0}} + 2 * {{1}} u wide, and {other} has "
                          f"to be {{2}} u wide")

    def small_pad(self):
        for layer in TABLES["width"]:
            if self.value("cut.size") + 2 * self.value("cut.enclosure") < self.value(f"width.{layer}"):
                keys = ["cut.size", "cut.enclosure", f"width.{layer}"]
                yield from self.sum(
                    keys, f"the pad of a contact would be {{0}} + 2 * {{1}} u wide, and {layer} has to be {{2}} u wide")
                return


def explain(path, text, kind, key):
    fault = Fault(path, text)
    tells = {
        "NotToml": fault.not_toml,
        "Missing": lambda: fault.missing(key),
        "WrongType": lambda: fault.wrong_type(key),
        "Unknown": lambda: fault.unknown(key),
        "OutOfRange": lambda: fault.range(key),
        "OddGrid": lambda: fault.odd("unit"),
        "OddWidth": lambda: fault.odd(key),
        "ZeroSpacing": lambda: fault.zero(key),
        "ShortChannel": fault.short_channel,
        "ShortExtension": fault.short_extension,
        "NarrowFet": fault.narrow_fet,
        "PadTooSmall": fault.small_pad,
    }
    yield from tells[kind]()
    yield from repair(kind) if kind != "NotToml" or kind_of(text) not in (DESIGN, CIF) else ()
