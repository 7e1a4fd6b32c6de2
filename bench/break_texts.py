"""CIF texts for breaks.py: boxes on all layers that touch, overlap or lie near one another, by themselves, as
transistors, contacts and windows, in symbols with scales and in turned calls; and masks with a few boxes moved,
stretched or gone.

Lengths are in hundredths of a micron; u is 150.
"""
from masks import read_masks


def box(layer, left, right, low, high):
    return "L %s; B %d %d %d %d;" % (layer, right - left, high - low, (left + right) // 2, (low + high) // 2)


def part(rng, step):
    """Boxes that belong together: a transistor, a contact, a buried contact, or one box; mostly as they should be."""
    x, y = (step * rng.randint(-12, 12) for _ in "xy")
    off = lambda n: n + rng.choice([0] * 12 + [-1, 1, -150, 150])
    around = lambda layer, w, h: box(layer, x - off(w), x + off(w), y - off(h), y + off(h))
    kind = rng.choice("fffccbssssss")
    if kind == "f":
        w, h = 300 * rng.randint(1, 3), 300 * rng.randint(1, 3)
        made = [around("NP", w + 600, h), around("ND", w, h + 600)]
        made += [around("NI", w + 450, h + 450)] * (rng.random() < 0.3)
        rng.shuffle(made)
        return "".join(made)
    if kind == "c":
        return around("NM", 600, 600) + around("NC", 300, 300) + around(rng.choice(["ND", "NP"]), 600, 600)
    if kind == "b":
        return around("NP", 300, 300) + around("ND", 300, 300) + around("NB", 900, 900)
    short, long = 150 * rng.randint(2, 6), 150 * rng.randint(2, 14)
    return around(rng.choice(["ND", "NP", "NM", "NM", "NM", "NI", "NB", "NC", "XX"]), *rng.sample((short, long), 2))


def one_layer(rng):
    """Boxes of one layer alone that are wide enough, so that nets are looked at."""
    layer = rng.choice(["NM", "NP", "ND"])
    for _ in range(rng.randint(2, 12)):
        x, y, w, h = (150 * rng.randint(*it) for it in ((-40, 40), (-40, 40), (3, 8), (3, 20)))
        yield box(layer, x - w, x + w, y - h, y + h)


def at_channel(rng):
    """Transistors that cross properly, and cuts, implants and windows near their channels."""
    for k in range(rng.randint(1, 2)):
        w, h = 300 * rng.randint(1, 3), 300 * rng.randint(1, 3)
        x = 6000 * k
        yield box("NP", x - w - 600, x + w + 600, -h, h) + box("ND", x - w, x + w, -h - 600, h + 600)
        for _ in range(rng.randint(0, 4)):
            a, b, c, d = (150 * rng.randint(*it) for it in ((-16, 16), (-16, 16), (1, 12), (1, 12)))
            yield box(rng.choice(["NC", "NI", "NI", "NB", "NM"]), x + a - c, x + a + c, b - d, b + d)


def turn(rng, step):
    """One of the transformations of a call."""
    return rng.choice([" T %d %d" % (step * rng.randint(-9, 9), 150 * rng.randint(-40, 40)), " M X", " M Y", " R 0 1",
                       " R -1 0", " R 0 -7"])


def made(rng):
    """A text of parts, in symbols and outside of them."""
    step = rng.choice([150, 300, 450, 900])
    kind = rng.random()
    parts = (list(one_layer(rng)) if kind < 0.3 else list(at_channel(rng)) if kind < 0.5
             else [part(rng, step) for _ in range(rng.choice([1, 2, 3, 5, 8, 14]))])
    if rng.random() < 0.5:
        return "".join(parts) + "E"
    at, scale = rng.randint(0, len(parts)), rng.choice(["", " 1 1", " 3 3", " 1 2", " 2 1"])
    calls = "".join("C 1%s;" % "".join(turn(rng, step) for _ in range(rng.randint(0, 3)))
                    for _ in range(rng.randint(1, 3)))
    return "DS 1%s; %sDF; %s%sE" % (scale, "".join(parts[:at]), "".join(parts[at:]), calls)


def changed(rng, texts):
    """The masks of an example, box by box, with a few boxes moved, stretched or gone."""
    boxes = [(layer, [round(it) for it in (x, x + w, y, y + h)]) for layer, (x, y, w, h) in
             read_masks(rng.choice(texts)).flat()]
    for _ in range(rng.choice([0, 1, 1, 2, 4])):
        k = rng.randrange(len(boxes))
        if rng.random() < 0.3:
            del boxes[k]
        else:
            sides = rng.choice([(0, 1), (2, 3), (0,), (1,), (2,), (3,)])
            by = rng.choice([-600, -300, -150, -1, 1, 150, 300, 600])
            boxes[k][1][:] = [it + by * (n in sides) for n, it in enumerate(boxes[k][1])]
        boxes = [it for it in boxes if it[1][0] < it[1][1] and it[1][2] < it[1][3]] or boxes[:1]
    if rng.random() < 0.5:
        rng.shuffle(boxes)
    return "".join(box(layer, *it) for layer, it in boxes) + "E"

