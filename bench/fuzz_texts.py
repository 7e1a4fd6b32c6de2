"""The inputs of fuzz.py: changed files, and texts made from nothing but a generator of random numbers."""
import os, re

NUMBERS = [0, 1, 2, 3, 4, 5, 6, 8, 9, 10, 12, 16, 24, 75, 150, 255, 256, 1200, 4094, 4095, 4096, 4097, 65535, 65536,
           65537, 999999, 1000000, 1000001,
           2 ** 29, 2 ** 30, 2 ** 30 + 1, 2 ** 31 - 1, 2 ** 31, 2 ** 32, 2 ** 53, 2 ** 63 - 1, 2 ** 63, 2 ** 64,
           10 ** 30]
BYTES = [b"\0", b"\n", b"\r", b"\r\n", b"\t", b" ", b"#", b".", b"-", b"<", b">=", b"<=", b";", b"(", b")", b"((",
         b'"', b"'", b"=", b"[", b"]", b"{", b"}", b",",
         b"\x7f", b"\x80", b"\xff", b"\xc3\xa4", b"\xef\xbb\xbf", b"_", b"0", b"E", b"A" * 33, b"[" * 81]
DESIGN_WORDS = (b"sticks 1 2 cell end grid row joint contact buried fet port use wire limit diff poly metal enh dep h "
                b"v left right bottom top x y <= >= "
                b"a b p q in out a.b u.p u.u.p").split()
CIF_WORDS = b"DS DF DD L B C T M X Y R E P W 9 ND NP NC NM NI NB XX ; ( ) -".split()
TECH_WORDS = (b"version unit width spacing extension cut diffusion poly metal poly_diffusion cut_channel "
              b"implant_channel implant size enclosure buried "
              b"buried_channel true 1.5 nan inf 1979-05-27 [ ] [[ ]] { } = . , \"\" ''").split()
TOKEN = re.compile(rb"[A-Za-z_.]+|\d+|\s+|[^A-Za-z_.\d\s]")


def corpus(folders, endings, names):
    """The files of the folders (and below) with these endings or names, by their paths."""
    files = {}
    for top in folders:
        for folder, _, here in os.walk(top):
            for name in here:
                path = os.path.join(folder, name)
                if (name.endswith(endings) or name in names) and 0 < os.path.getsize(path) < 20000:
                    with open(path, "rb") as file:
                        files[os.path.relpath(path, top)] = file.read()
    return files


def number(rng):
    n = rng.choice(NUMBERS) if rng.random() < 0.6 else rng.randint(0, 40)
    return b"%d" % (-n if rng.random() < 0.15 else n)


def near(rng, digits):
    """A number near this one, or another one."""
    n = int(digits) if len(digits) < 30 else 0
    return rng.choice([b"%d" % (n + 1), b"%d" % max(0, n - 1), b"%d" % (2 * n), b"0" + digits, b"-" + digits,
                       number(rng), number(rng)])


def by_bytes(rng, text):
    at = rng.randint(0, len(text))
    how = rng.randrange(4)
    if how == 0:
        return text[:at]
    if how == 1:
        return text[:at] + rng.choice(BYTES) + text[at:]
    if how == 2:
        return text[:at] + text[at + rng.choice([1, 1, 2, 10]):]
    return text[:at] + bytes([rng.randrange(256)]) + text[at + 1:]


def by_tokens(rng, text, pool):
    tokens = TOKEN.findall(text)
    if not tokens:
        return number(rng)
    for _ in range(rng.choice([1, 1, 1, 2, 3])):
        at = rng.randrange(len(tokens))
        how = rng.randrange(6)
        if how == 0:
            tokens[at] = b" "
        elif how == 1:
            tokens[at] = rng.choice(pool)
        elif how == 2:
            tokens[at] = rng.choice(tokens)
        elif how == 3:
            tokens[at] += b" " + rng.choice([rng.choice(pool), number(rng)]) + b" "
        else:
            places = [k for k, token in enumerate(tokens) if token.isdigit()]
            if places:
                at = rng.choice(places)
                tokens[at] = near(rng, tokens[at])
    return b"".join(tokens)


def by_lines(rng, text, other, end):
    lines, others = text.split(end), other.split(end)
    a, b = rng.randrange(len(lines)), rng.randrange(len(lines))
    how = rng.randrange(6)
    if how == 0:
        del lines[a]
    elif how == 1:
        lines.insert(a, lines[b])
    elif how == 2:
        lines[a], lines[b] = lines[b], lines[a]
    elif how == 3:
        lines.insert(a, rng.choice(others))
    elif how == 4:
        lines[a:] = others[rng.randrange(len(others)):]
    else:
        lines[a:a] = [rng.choice(others)] * rng.choice([2, 10, 300])
    return end.join(lines)


def mutated(rng, texts, pool, end):
    text = texts[rng.choice(sorted(texts))]
    for _ in range(rng.choice([0, 1, 1, 1, 2, 2, 3, 6])):
        how = rng.random()
        if how < 0.2:
            text = by_bytes(rng, text)
        elif how < 0.65:
            text = by_tokens(rng, text, pool)
        else:
            text = by_lines(rng, text, texts[rng.choice(sorted(texts))], end)
    return text


def mutated_design(rng, texts):
    return mutated(rng, texts, DESIGN_WORDS, b"\n")


def mutated_tech(rng, texts):
    if rng.random() < 0.05:
        depth = rng.choice([1, 79, 80, 81, 1000, 20000])
        text = rng.choice([b"a = " + b"[" * depth + b"]" * depth, b"a = " + b"{a=" * depth + b"1" + b"}" * depth,
                           b"[" * depth, b"[" + b"a." * depth + b"a]", b"a." * depth + b"a = 1"])
        return text[:65536]
    return mutated(rng, texts, TECH_WORDS, b"\n")


def mutated_cif(rng, texts):
    return mutated(rng, texts, CIF_WORDS, rng.choice([b";", b"\n"]))


# A made design: cells of nodes on a small square, wires between neighbours in a line, ports, limits and uses; mostly
# without a fault.

def pad_layers(node):
    return {"metal": ["metal"], "poly": ["poly"], "diff": ["diff"], "cd": ["metal", "diff"], "cp": ["metal", "poly"],
            "buried": ["poly", "diff"],
            "h": ["poly", "diff"], "v": ["poly", "diff"]}[node]


def node_line(rng, kind, name, col, row):
    if kind in ("metal", "poly", "diff"):
        least = 6 if kind == "metal" else 4
        width = "" if rng.random() < 0.8 else " %d" % (least + 2 * rng.randint(0, 6))
        return "joint %s %s %d %d%s" % (name, kind, col, row, width)
    if kind in ("cd", "cp"):
        return "contact %s %s %d %d" % (name, "diff" if kind == "cd" else "poly", col, row)
    if kind == "buried":
        return "buried %s %d %d" % (name, col, row)
    return "fet %s %s %s %d %d %d %d" % (name, rng.choice(["enh", "dep"]), kind, col, row, 4 + 2 * rng.randint(0, 4),
                                         4 + 2 * rng.randint(0, 3))


def made_wires(rng, nodes, spread):
    """Wires between nodes that are next to one another in a row or a column."""
    for (col, row), (name, kind) in sorted(nodes.items()):
        for across in (True, False):
            line = [at for at in nodes if (at[1] == row and at[0] > col if across else at[0] == col and at[1] > row)]
            if not line or rng.random() > spread:
                continue
            other, other_kind = nodes[min(line)]
            layers = [layer for layer in pad_layers(kind) if layer in pad_layers(other_kind)]
            if layers:
                layer = rng.choice(layers)
                ends = [name, other] if rng.random() < 0.9 else [other, name]
                width = "" if rng.random() < 0.9 else " %d" % (2 * rng.randint(2, 4))
                yield "wire %s %s %s%s" % (layer, *ends, width)


def made_ports(rng, nodes, prefix):
    """Ports with their wires: (lines of ports, lines of wires)."""
    ports, wires = [], []
    for (col, row), (name, kind) in sorted(nodes.items()):
        if rng.random() < 0.15:
            side, layer = rng.choice(["left", "right", "bottom", "top"]), rng.choice(pad_layers(kind))
            port = "%s%d" % (prefix, len(ports))
            ports.append("port %s %s %s %d" % (port, side, layer, row if side in ("left", "right") else col))
            wires.append("wire %s %s"
                         % (layer, "%s %s" % ((port, name) if side in ("left", "bottom") else (name, port))))
    return ports, wires


def made_cell(rng, name, earlier):
    side = rng.randint(1, 6)
    kinds = rng.choice([["metal"], ["metal", "poly"], ["metal", "poly", "diff", "cd", "cp", "h", "v"],
                        ["metal", "poly", "diff", "cd", "cp", "h", "v", "buried"]])
    places = [(c, r) for c in range(side) for r in range(side)]
    chosen = rng.sample(places, rng.randint(0, min(len(places), 14)))
    nodes = {at: ("n%d" % k, rng.choice(kinds)) for k, at in enumerate(chosen)}
    lines = [node_line(rng, kind, node, *at) for at, (node, kind) in nodes.items()]
    wires = list(made_wires(rng, nodes, rng.random()))
    ports, port_wires = made_ports(rng, nodes, "e") if rng.random() < 0.4 else ([], [])
    uses, names = [], [node for node, _ in nodes.values()]
    for k in range(rng.choice([0, 0, 1, 2, 4]) if earlier else 0):
        used, used_nodes = rng.choice(earlier)
        uses.append("use u%d %s %d %d" % (k, used, rng.choice([0, side, 7 * k, 7]), rng.choice([0, side, 7 * k + 7])))
        names += ["u%d.%s" % (k, node) for node in used_nodes]
    limits = []
    if len(names) > 1:
        for _ in range(rng.choice([0, 0, 0, 1, 3])):
            limits.append("limit %s %s %s %s %d" % (rng.choice("xy"), *rng.sample(names, 2), rng.choice(["<=", ">="]),
                                                    rng.randint(-40, 60)))
    body = lines + ports + uses + wires + port_wires + limits
    return "cell %s\n%send\n" % (name, "".join(line + "\n" for line in body)), names, bool(ports)


def script(rng, design):
    """A script of jogs in cells of a design, mostly without a fault."""
    cells = re.findall(rb"^\s*cell\s+(\S+)", design, re.M) or [b"c"]
    lines = [b"jog %s %d %d %s" % (rng.choice(cells), rng.randint(0, 6), rng.randint(0, 5),
                                   rng.choice([b"left", b"right"])) for _ in range(rng.choice([0, 1, 1, 2, 4, 8]))]
    if rng.random() < 0.15:
        lines.insert(rng.randint(0, len(lines)),
                     rng.choice([b"jog", b"jog c 0 0 up", b"# jog", b"", b"jog c -1 0 left", b"jog c 1000001 0 left",
                                 b"jog a.b 0 0 left", b"jog none 0 0 left", b"\xff"]))
    return b"".join(line + rng.choice([b"\n", b"\n", b"\r\n"]) for line in lines)


def made_design(rng):
    cells, earlier, every = [], [], []
    for k in range(rng.choice([1, 1, 2, 3, 5])):
        text, names, has_ports = made_cell(rng, "c%d" % k, earlier)
        cells.append(text)
        every.append("c%d" % k)
        if not has_ports or rng.random() < 0.05:
            earlier.append(("c%d" % k, names[:20]))
    version = rng.choice([1, 1, 2])
    grids = []
    for k in range(1 if version == 1 else rng.randint(1, 3)):
        columns = rng.choice([1, 1, 1, 2, 3, 20])
        rows = "".join("row %s\n" % " ".join(rng.choices(every, k=columns)) for _ in range(rng.choice([1, 1, 2, 3])))
        grids.append("grid%s\n%send\n" % ("" if version == 1 else " g%d" % k, rows))
    return ("sticks %d\n" % version + "".join(cells) + "".join(grids)).encode()


# A made CIF text: boxes on a small square, so that many touch, cross or lie near, in symbols and outside.

def made_box(rng, layer):
    if layer == "NC":
        return "B %d %d %d %d;" % (*rng.choice([(1200, 1200)] * 9 + [(1200, 600)]), 300 * rng.randint(-12, 12),
                                   300 * rng.randint(-12, 12))
    short, long = 300 * rng.randint(3, 8), 300 * rng.randint(4, 20)
    width = (short, long) if rng.random() < 0.5 else (long, short)
    return "B %d %d %d %d;" % (*width, 150 * rng.randint(-30, 30), 150 * rng.randint(-30, 30))


def made_boxes(rng, most):
    texts, layer = [], ""
    for _ in range(rng.randint(0, most)):
        wanted = rng.choice(["ND", "NP", "NM", "NM", "NC", "NI", "NB", "XX"])
        if wanted != layer:
            texts.append("L %s;" % wanted)
            layer = wanted
        texts.append(made_box(rng, layer))
    return "".join(texts)


def made_cif(rng):
    texts, symbols = [], rng.randint(0, 3)
    for k in range(symbols):
        scale = rng.choice(["", " 1 1", " 1 2", " 75 1", " 2 3"])
        texts.append("DS %d%s;%sDF;" % (k + 1, scale, made_boxes(rng, 8)))
    texts.append(made_boxes(rng, rng.choice([2, 4, 12])))
    for _ in range(rng.randint(0, 5) if symbols else 0):
        shifts = "".join(" T %d %d" % (150 * rng.randint(-60, 60), 150 * rng.randint(-60, 60))
                         for _ in range(rng.randint(0, 2)))
        texts.append("C %d%s;" % (rng.randint(1, symbols), shifts))
    texts.append("E")
    return "\n".join(texts).encode()


# Words.

WORDS = (b"compact check breaks extract nets fmt bench slack jog edit help version --help --version -h -V "
         b"d d d t t c c --tech --tech --tech=t --tech= --tech=none "
         b"--passes --passes=xy --passes=x xy yx xyxyxyxyxyxyxyxy xyxyxyxyxyxyxyxyx --split --split=1 --split=64 "
         b"--split=65 --split=064 --most --most=65536 --most=00001 65537 100000 "
         b"0 1 2 3 12 64 65 064 999 1000 -1 "
         b"- -- --- -x none . /dev/null /dev/zero \xff \xc3\xa4").split() + [b"", b" ", b"d ", b"a" * 5000, b"=",
                 b"--=", b"\n"]
GOOD = [b"compact d --tech t", b"compact --tech t d --passes yx --split 3", b"check c --tech t", b"extract --tech=t c",
        b"breaks c --tech t", b"breaks --most 7 --tech=t c", b"nets d --tech t",
        b"fmt d", b"bench 1", b"bench 3"]


def words(rng):
    chosen = rng.choice(GOOD).split() if rng.random() < 0.7 else []
    for _ in range(rng.choice([0, 1, 1, 2, 3, 6])):
        at = rng.randint(0, len(chosen))
        if chosen and rng.random() < 0.4:
            chosen[at % len(chosen)] = rng.choice(WORDS)
        elif chosen and rng.random() < 0.2:
            del chosen[at % len(chosen)]
        else:
            chosen.insert(at, rng.choice(WORDS))
    return chosen
