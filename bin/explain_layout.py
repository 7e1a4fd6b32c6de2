"""Why two parts clash, why a pass has no solution, and what makes a cell as large as it is."""
from design import LAYERS
from drawn import NAMES, Drawn, cross, direction
from explain_words import repair
from program import last_passes, read_report

AXES = ("x", "y")
WHY = {
    "size": "a cell is at least as wide as the widest spacing",
    "extent": "a wire is at least as long as it is wide",
    "pitch": "cells of one column are equally wide, and cells of one row equally high",
}
SHOWN = 3  # of the parts whose boxes ask for one distance, so many are told


def number(it):
    return f"{it:g}"


def either(owners, first):
    """Some of the owners of boxes, the part itself first."""
    names = sorted(owners, key=lambda it: it != first)
    return " or ".join(names[:SHOWN]) + (" .." if len(names) > SHOWN else "")


class Layout:
    """The parts of a design, by the names that the program gives them."""

    def __init__(self, path, design, tech):
        self.path, self.design, self.tech, self._drawn = path, design, tech, {}

    def drawn(self, name):
        if name not in self._drawn:
            self._drawn[name] = Drawn(self.design.inlined(name), self.tech)
        return self._drawn[name]

    def at(self, line):
        return f"{self.path}:{line.number}: {line.text}"

    def lines(self, part):
        """The line of a part, and the uses that it comes by."""
        yield self.at(part.line)
        names = part.ends[0] if part.ends else part.name
        for deep, use in enumerate(reversed(part.uses)):
            copy = ".".join(names.split(".")[: len(part.uses) - deep])
            yield f"  in the copy '{copy}': {self.at(use)}"

    def what(self, part, inlined):
        """What a part is, and where it is drawn."""
        if part.form != "wire":
            kinds = {"joint": f"joint on {LAYERS.get(part.layer, part.layer)}",
                     "contact": f"contact of metal to {LAYERS.get(part.layer, '')}", "buried": "buried contact",
                     "fet": "transistor"}
            return f"{kinds[part.form]} at column {part.column}, row {part.row}"
        along, low, high = direction(part, inlined)
        ends = []
        for name in (low, high):
            end = inlined.part(name)
            if end.form == "port":
                ends.append(f"the {end.line.words[2]} border ('{name}')")
            else:
                ends.append(f"{('column', 'row')[along]} {(end.column, end.row)[along]} ('{name}')")
        return (f"{LAYERS[part.layer]} wire in {('row', 'column')[along]} {cross(part, inlined)}, from {ends[0]} to "
                f"{ends[1]}")

    def told(self, name, inlined):
        part = inlined.part(name)
        yield f"{name}: {self.what(part, inlined)}"
        yield from (f"  {it}" for it in self.lines(part))

    # ---- clash

    def clash(self, cell, a, b):
        drawn = self.drawn(cell)
        inlined = drawn.inlined
        for name in (a, b):
            yield from self.told(name, inlined)
        seen = {}
        for rule, i, j, gap in drawn.clashes(a, b):
            if rule[2] not in seen or gap < seen[rule[2]][1]:
                seen[rule[2]] = rule, gap
        for rule, gap in seen.values():
            how = f"{number(gap)} u apart" if gap > 0 else "without a gap" if gap == 0 else "one over the other"
            yield f"rule: {rule[4]}: {rule[2]}, at least {self.tech[rule[2]]} u; as drawn they lie {how}"
        yield from self.mend(seen, inlined.part(a), inlined.part(b), inlined)

    def mend(self, seen, a, b, inlined):
        """What helps against a clash, by its rules and parts."""
        if "spacing.poly_diffusion" in seen and a.form == b.form == "wire":
            flat, up = sorted((a, b), key=lambda it: direction(it, inlined)[0])
            if direction(flat, inlined)[0] != direction(up, inlined)[0]:
                way = "h" if flat.layer == "poly" else "v"
                yield (f"repair: where poly crosses diffusion, a transistor stands: 'fet NAME enh {way} "
                       f"{cross(up, inlined)} {cross(flat, inlined)} W L', and the wires end at it")
                yield "or, if none is meant, another column or row for one of the two, or metal and contacts"
                return
        if any(rule[3] for rule, _ in seen.values()):
            yield ("repair: if the two belong to one net, join them by a wire; else draw one of them in another column "
                   "or row")
        elif "spacing.poly_diffusion" in seen:
            yield ("repair: a 'fet' where poly is to cross diffusion, a 'contact' or 'buried' where they are to be "
                   "joined; else another column or row for one of the two")
        else:
            yield "repair: another column or row for one of the two"

    # ---- inequalities

    def split(self, name):
        """The cell of a variable, and its name there: `|` is the far border, `0` the origin."""
        if name == "0":
            return "", "0"
        if name.endswith("|"):
            return name[:-1], "|"
        return tuple(name.split(":", 1))

    def step(self, step, axis, is_first):
        """Why an inequality holds, and the lines that ask for it, as (line, why)."""
        (low_cell, low), (high_cell, high) = self.split(step.low), self.split(step.high)
        cell = high_cell or low_cell
        drawn = self.drawn(cell)
        if step.why == "space":
            return list(self.space(drawn, low, high, axis, step.length, is_first))
        if step.why == "margin":
            return list(self.margin(drawn, high if low == "0" else low, axis, low != "0", step.length))
        if step.why == "overlap":
            wire, node = (low, high) if low.startswith("#") else (high, low)
            told = f"wire {wire} stays within the pad of '{node}' at its end"
            return [told, *(it for name in (wire, node) for it in self.lines(drawn.inlined.part(name)))]
        if step.why == "limit":
            return list(self.limit(drawn.inlined, low, high, axis, step.length))
        if step.why == "port":
            return list(self.port(low_cell, low, high_cell, high))
        if step.why == "pitch":
            word, how = (("column", "wide"), ("row", "high"))[axis]
            return [f"'{low_cell}' and '{high_cell}' share a {word} of a grid, so they are equally {how}"]
        if step.why == "extent":
            return [WHY["extent"], *self.extent(drawn.inlined, low, high, axis)]
        return [WHY[step.why]]

    def space(self, drawn, low, high, axis, length, is_first):
        """The boxes that ask for a spacing; which of them face each other is known of the first pass alone, in the
        layout as drawn.
        """
        found = {}
        values = drawn.start() if is_first else None
        for rule, i, j in drawn.spaces(low, high, axis, length):
            if not values or drawn.faces(rule, i, j, axis, values):
                sides = found.setdefault(rule[2], (i.kind, {}, j.kind, {}))
                sides[1][i.owner], sides[3][j.owner] = True, True
        if len(found) > 1 and not is_first:
            yield "one of these at least:"
        for key, (one, owners, other, others) in found.items():
            yield (f"{NAMES[one]} of {either(owners, low)} and {NAMES[other]} of {either(others, high)}: {key}, "
                   f"{self.tech[key]} u between their boxes")
        sides = list(found.values())
        for k, name in ((1, low), (3, high)):
            owners = {owner for it in sides for owner in it[k]}
            part = name if name in owners or len(owners) != 1 else next(iter(owners))
            if part not in ("0", "|"):
                yield from self.lines(drawn.inlined.part(part))

    def margin(self, drawn, name, axis, is_high, length):
        found = list(drawn.margins(name, axis, is_high, length))
        border = (("left", "right"), ("lower", "upper"))[axis][is_high]
        for item in found[:1]:
            yield (f"{NAMES[item.kind]} of {item.owner} keeps off the {border} border by "
                   f"{self.tech.margin(item.kind)[0]} u ({self.tech.margin(item.kind)[1]})")
        owners = dict.fromkeys([it.owner for it in found[:1]] or [name])
        for owner in owners:
            yield from self.lines(drawn.inlined.part(owner))

    def limits(self, inlined, low, high, axis, length):
        """The limits that ask for an inequality: each with whether it is an upper one."""
        for it in inlined.limits:
            words, ends = it.line.words, it.ends
            if (words[1] == AXES[axis] and (ends == (low, high) and words[4] == ">=" and int(words[5]) == length
                                            or ends == (high, low) and words[4] == "<=" and -int(words[5]) == length)):
                yield it, words[4] == "<="

    def limit(self, inlined, low, high, axis, length):
        for part, is_upper in self.limits(inlined, low, high, axis, length):
            a, b = part.ends
            yield (f"'{b}' lies at {'most' if is_upper else 'least'} {part.line.words[5]} u "
                   f"{('to the right of', 'above')[axis]} '{a}'")
            yield from self.lines(part)
            return

    def extent(self, inlined, low, high, axis):
        for wire in inlined.wires:
            along, start, end = direction(wire, inlined)
            if along == axis and {start, end} & {low, high} and (low in (start, "0") and high in (end, "|")):
                yield from self.lines(wire)

    def port(self, low_cell, low, high_cell, high):
        both = []
        for cell, name in ((low_cell, low), (high_cell, high)):
            inlined = self.drawn(cell).inlined
            wire = inlined.part(name)
            port = next((inlined.ports[it] for it in wire.ends if it in inlined.ports), None)
            both.append((cell, wire, port))
        ports = [f"'{port.name}' of '{cell}'" if port else f"a port of '{cell}'" for cell, _, port in both]
        yield f"{ports[0]} and {ports[1]} meet where the cells stand beside one another, so their wires lie level"
        for _, wire, port in both:
            yield from self.lines(wire)
            if port:
                yield from self.lines(port)

    def variable(self, name, axis):
        cell, inner = self.split(name)
        if inner == "0":
            return ("the left border", "the lower border")[axis]
        if inner == "|":
            return f"the {('right', 'upper')[axis]} border of {cell}"
        return name

    def told_step(self, step, axis, is_first):
        low, high = self.variable(step.low, axis), self.variable(step.high, axis)
        if step.length > 0:
            yield f"{high} lies at least {step.length} u {('to the right of', 'above')[axis]} {low} ({step.why})"
        elif step.length < 0:
            yield f"{low} lies at most {-step.length} u {('to the right of', 'above')[axis]} {high} ({step.why})"
        else:
            yield f"{high} lies at least as far {('to the right', 'up')[axis]} as {low} ({step.why})"
        yield from (f"    {it}" for it in self.step(step, axis, is_first))

    def cycle(self, told):
        last = read_report(told)[-1]
        axis, steps = AXES.index(last.axis), last.cycle
        yield (f"pass {last.number} on {last.axis}: these {len(steps)} inequalities lead from {steps[0].low} round to "
               f"itself, and ask that it lies {last.excess} u past itself:")
        for step in steps:
            yield from self.told_step(step, axis, last.number == 1)
        yield from self.way_out(last, steps, axis)

    def way_out(self, last, steps, axis):
        is_told = False
        for step in steps:
            (cell, low), (_, high) = self.split(step.low), self.split(step.high)
            for part, is_upper in self.limits(self.drawn(cell).inlined, low, high, axis,
                                              step.length) if step.why == "limit" else ():
                n = int(part.line.words[5])
                new = f"<= {n + last.excess}" if is_upper else f">= {n - last.excess}"
                yield (f"{'or' if is_told else 'repair:'} line {part.line.number}: '{new}' in place of "
                       f"'{part.line.words[4]} {n}' opens this cycle (there may be another one that is longer)")
                is_told = True
        has_port = any(it.why == "port" for it in steps)
        if has_port and last.number > 1:
            other = "yx" if axis == 1 else "xy"
            yield (f"{'or' if is_told else 'repair:'} try --passes {other}, with which the pass on {AXES[axis]} comes "
                   "first, while the parts still stand as drawn; or draw the ports in other "
                   f"{('columns', 'rows')[axis]}")
        elif has_port:
            yield (f"{'or' if is_told else 'repair:'} draw the ports that meet in {('columns', 'rows')[axis]} that lie "
                   "level in both cells")
        elif not is_told:
            yield from repair("11 a cycle")
        yield f"together the lines have to give way by {last.excess} u"

    # ---- critical paths

    def paths(self, told):
        """For each cell what makes it as wide and as high as it is, after the last pass on each axis."""
        for name, made in sorted(last_passes(read_report(told)).items()):
            axis = AXES.index(name)
            is_first = made.number == 1
            for cell in made.cells:
                yield f"{cell.name} is {cell.size} u {('wide', 'high')[axis]} (pass {made.number}), because"
                at = 0
                for step in cell.path:
                    at += step.length
                    yield (f"  {self.variable(step.high, axis)} is at {at} u: {step.length} u past "
                           f"{self.variable(step.low, axis)} ({step.why})")
                    yield from (f"      {it}" for it in self.step(step, axis, is_first))
