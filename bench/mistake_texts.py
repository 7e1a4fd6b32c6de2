"""Typical mistakes, for mistakes.py: what is run on which texts, and what its explanation has to say.

Each is a title, the words of a command, the files that it reads beside those of examples/, by their names, and texts
that have to stand in the explanation, in this order.
"""
from pathlib import Path

EXAMPLES = Path(__file__).resolve().parent.parent / "examples"
NMOS = (EXAMPLES / "nmos.toml").read_text(encoding="utf-8")
INVERTER = (EXAMPLES / "inverter.sticks").read_text(encoding="utf-8")


def cell(*lines, row="c", before=""):
    """A design of version 1 whose cell c has these lines; the first of them is line 3, where nothing stands before."""
    return "\n".join(["sticks 1", *([before] if before else []), "cell c", *lines, "end", "grid", f"row {row}", "end",
                      ""])


def tech(old, new):
    if NMOS.count(old) != 1:
        raise SystemExit(f"examples/nmos.toml has no line with '{old}'")
    return {"t.toml": NMOS.replace(old, new)}


def design(title, text, *told, words="compact d --tech nmos.toml"):
    return title, words, {"d": text}, told


def compact(title, *lines, told, row="c", before="", words="compact d --tech nmos.toml"):
    return design(title, cell(*lines, row=row, before=before), *told, words=words)


def technology(title, old, new, *told):
    return title, "compact inverter.sticks --tech t.toml", tech(old, new), told


def words(title, line, *told):
    return title, line, {}, told


def cif(title, text, *told, command="check"):
    return title, f"{command} m --tech nmos.toml", {"m": text}, told


U = 150  # the unit of examples/nmos.toml, in hundredths of a micron


def boxes(*them):
    """Boxes as layer, left, right, low and high, in u."""
    lines = [f"L {layer};\nB {(r - l) * U} {(h - b) * U} {(l + r) * U // 2} {(b + h) * U // 2};"
             for layer, l, r, b, h in them]
    return "\n".join([*lines, "E", ""])


CONTACT = [("NM", 0, 8, 0, 8), ("ND", 0, 8, 0, 8), ("NC", 2, 6, 2, 6)]
FET = [("NP", -4, 12, 0, 4), ("ND", 0, 8, -4, 8)]
HALF = "cell half\njoint a metal 0 0\njoint b metal 2 0\nwire metal a b\nend"
TWO = ("joint a metal 0 0", "joint b metal 2 0", "joint e metal 2 2")
PORT = ("contact k diff 0 0", "port in left metal 0", "wire metal in k")

CLASHES = [
    compact("clash of two wires", "contact g diff 0 0", "contact o diff 0 2", "joint e poly 1 1",
            "port in left poly 1", "wire diff g o", "wire poly in e",
            told=["#0: diffusion wire in column 0, from row 0 ('g') to row 2 ('o')", "d:7: wire diff g o",
                  "#1: poly wire in row 1", "d:8: wire poly in e",
                  "spacing.poly_diffusion, at least 2 u", "'fet NAME enh h 0 1 W L'"]),
    compact("clash in a copy", "use u half 0 0", "use v half 0 1", "joint e metal 1 0", "joint f metal 1 2",
            "wire metal e f", before=HALF,
            told=["e: joint on metal at column 1, row 0", "d:10: joint e metal 1 0",
                  "#0: metal wire in row 0, from column 0 ('u.a') to column 2 ('u.b')",
                  "d:5: wire metal a b", "in the copy 'u': d:8: use u half 0 0", "spacing.metal, at least 6 u"]),
    compact("clash of two wires in copies of copies", "use p two 0 0", "joint e metal 1 0", "joint f metal 1 3",
            "wire metal e f", row="c",
            before=HALF + "\ncell two\nuse u half 0 1\nuse v half 0 2\nend",
            told=["#0: metal wire in row 1, from column 0 ('p.u.a')", "d:5: wire metal a b",
                  "in the copy 'p.u': d:8: use u half 0 1",
                  "in the copy 'p': d:12: use p two 0 0", "#2: metal wire in column 1", "d:15: wire metal e f",
                  "join them by a wire"]),
    compact("clash of a port's wire and a contact", "contact k diff 0 0", "contact q diff 1 0", "port in left metal 0",
            "wire metal in q",
            told=["k: contact of metal to diffusion at column 0, row 0", "d:3: contact k diff 0 0",
                  "#0: metal wire in row 0, from the left border ('in') to column 1 ('q')",
                  "d:6: wire metal in q", "spacing.metal, at least 6 u; as drawn they lie one over the other"]),
]

CYCLES = [
    compact("cycle by limits", "joint a metal 0 0", "joint b metal 1 0", "joint e metal 2 0", "limit x a e <= 20",
            "limit x a b >= 12",
            told=["pass 1 on x", "d:7: limit x a b >= 12", "d:4: joint b metal 1 0",
                  "'e' lies at most 20 u to the right of 'a'", "d:6: limit x a e <= 20",
                  "line 6: '<= 24' in place of '<= 20'"]),
    compact("limit with 'at most' too small", "joint a metal 0 0", "joint b metal 1 0", "limit x a b <= 8",
            told=["c:b lies at least 12 u to the right of c:a (space)",
                  "metal of a and metal of b: spacing.metal, 6 u", "d:3: joint a", "d:4: joint b",
                  "d:5: limit x a b <= 8", "line 5: '<= 12' in place of '<= 8'"]),
    compact("limits the wrong way round", "joint a metal 0 0", "joint b metal 0 1", "limit y b a >= 5",
            told=["'a' lies at least 5 u above 'b'", "d:5: limit y b a >= 5", "line 5: '>= -12'"],
            words="compact d --tech nmos.toml --passes yx"),
    compact("cycle by ports on different rows", "joint a metal 0 0", "joint b metal 1 1", "joint e metal 1 2",
            "port in left metal 0", "port out right metal 2",
            "wire metal in a", "wire metal e out", row="c c",
            told=["pass 2 on y", "c:b lies at least 12 u above c:a (space)", "(port)",
                  "'out' of 'c' and 'in' of 'c' meet", "d:9: wire metal e out", "d:7: port out right metal 2",
                  "d:8: wire metal in a", "--passes yx"]),
]

GRIDS = [
    compact("ports on different layers", "contact k poly 0 0", "port l left poly 0", "port r right metal 0",
            "wire poly l k", "wire metal k r", row="c c",
            told=["d:10: row c c", "port 0 of the border", "d:5: port r right metal 0", "metal, 6 u wide",
                  "d:4: port l left poly 0", "poly, 4 u wide", "the layers differ, metal and poly"]),
    compact("ports of different widths", "joint a metal 0 0 8", "port l left metal 0", "port r right metal 0",
            "wire metal l a 8", "wire metal a r", row="c c",
            told=["d:5: port r right metal 0", "6 u wide by line 7", "8 u wide by line 6: wire metal l a 8",
                  "the widths differ, 6 and 8 u"]),
    compact("another number of ports", "joint a metal 0 0", "port r right metal 0", "wire metal a r", row="c c",
            told=["d:8: row c c", "d:4: port r right metal 0",
                  "'c' has no port 0 on its left side; it has none there"]),
    compact("ragged row", "joint a metal 0 0", row="c c\nrow c",
            told=["d:6: row c c", "d:7: row c", "names in the first row: 2, in row 1: 1"]),
    compact("a row with a name that is no cell", "joint a metal 0 0", row="c k",
            told=["d:6: row c k", "no cell has the name 'k', word 3"]),
]

NAMES = [
    compact("unknown node", *TWO, "wire metal a bb",
            told=["d:6: wire metal a bb", "'bb': there is no node, port or use 'bb' above; did you mean 'b'?"]),
    compact("a node below its wire", "joint a metal 0 0", "wire metal a b", "joint b metal 2 0",
            told=["d:4: wire metal a b", "it stands below, at line 5"]),
    compact("unknown node in a copy", "use u half 0 0", "joint e metal 4 0", "wire metal u.c e", before=HALF,
            told=["d:10: wire metal u.c e", "'u.c': there is no 'c' in cell 'half', which 'u' copies"]),
    compact("unknown cell in a use", "use u haif 0 0", before=HALF,
            told=["d:8: use u haif 0 0", "no cell above has the name 'haif'; did you mean 'half'?"]),
    compact("a name given twice", *TWO, "contact a diff 4 0",
            told=["d:6: contact a diff 4 0", "the name 'a' is given already: d:3: joint a metal 0 0"]),
    compact("a wire that ends at a whole copy", "use u half 0 0", "joint e metal 4 0", "wire metal u e", before=HALF,
            told=["d:10: wire metal u e", "'u' is a whole copy: d:8: use u half 0 0", "u.a, u.b"]),
    compact("a wire that is not straight", *TWO, "wire metal a e",
            told=["d:6: wire metal a e", "'a' is at column 0, row 0", "'e' is at column 2, row 2",
                  "put a joint where it turns"]),
    compact("a wire on another layer", *TWO, "wire poly a b",
            told=["d:6: wire poly a b", "a wire of poly cannot end at 'a', which takes metal: d:3"]),
    compact("poly that leaves a transistor on its diffusion side", "fet t enh h 0 0 8 4", "joint n poly 0 2",
            "wire poly t n",
            told=["d:5: wire poly t n",
                  "'t' has its gate across (h), so poly leaves it sideways; this wire runs up or down: d:3"]),
    compact("a narrow wire at a contact", "contact k diff 0 0", "joint b metal 2 0", "wire metal k b 4",
            told=["d:5: wire metal k b 4", "the width 4 is below width.metal, 6 u"]),
    compact("a wide wire at a buried contact", "buried k 0 0", "joint b diff 2 0 8", "wire diff k b 6",
            words="compact d --tech nmos2.toml",
            told=["d:5: wire diff k b 6", "is more than the pad of 'k', 4 u"]),
    compact("a wire wider than a joint", *TWO, "wire metal a b 8",
            told=["d:6: wire metal a b 8", "the width 8 is more than the pad of 'a', 6 u (the joint's width): d:3"]),
    compact("a rail wider than the pad of a contact", "contact k diff 0 0", "port in left metal 0",
            "wire metal in k 16",
            told=["d:5: wire metal in k 16",
                  "the width 16 is more than the pad of 'k', 8 u (the cut and twice its enclosure): d:3",
                  "beside a contact a joint as wide"]),
    compact("a port with two wires", *PORT, "joint b metal 2 0", "wire metal in b",
            told=["d:7: wire metal in b", "the port 'in' has a wire already: d:5: wire metal in k"]),
    compact("a port without a wire", *TWO, "port in left metal 0",
            told=["d:7: end", "the port 'in' of cell 'c' has no wire: d:6: port in left metal 0"]),
    compact("a cell with ports in a use", *TWO, "use u d 4 0",
            before="cell d\njoint a metal 0 0\nport p left metal 0\nwire metal p a\nend",
            told=["d:11: use u d 4 0", "cell 'd' has ports", "d:4: port p left metal 0"]),
    compact("an odd size", "fet t enh h 0 0 7 4", told=["d:3: fet t enh h 0 0 7 4", "the W 7 is odd"]),
    compact("a buried contact without one in the technology", "buried k 0 0",
            told=["d:3: buried k 0 0", "version 1, which has none", "examples/nmos2.toml"]),
    compact("a limit to a port", *PORT, "limit x k in >= 5",
            told=["d:6: limit x k in >= 5", "'in' is no node, a port: d:4"]),
    compact("a place that is too far", "joint a metal 5000 0",
            told=["d:3: joint a metal 5000 0", "the column 5000 is past 4095"]),
]

LANGUAGE = [
    compact("a word too few", "joint a metal 0",
            told=["d:3: joint a metal 0", "its ROW is missing", "joint NAME LAYER COL ROW [WIDTH]"]),
    compact("a word too many", "contact k diff 0 0 8", told=["d:3: contact k diff 0 0 8", "'8' is one word too many"]),
    compact("a misspelt keyword", "joimt a metal 0 0",
            told=["d:3: joimt a metal 0 0", "'joimt' begins no line; did you mean 'joint'?"]),
    compact("a misspelt layer", "joint a metall 0 0",
            told=["d:3: joint a metall 0 0",
                  "'metall' stands where its LAYER is asked for: diff, poly or metal; did you mean 'metal'?"]),
    compact("a comma", "joint a metal 0, 0",
            told=["d:3: joint a metal 0, 0", "at column 15: '0,' is no word of a design: the character ','"]),
    design("an end that is missing", "sticks 1\ncell c\njoint a metal 0 0\ngrid\nrow c\nend\n", "d:4: grid",
           "the 'end' of 'cell c' (line 2) is missing above it"),
    design("no grid", "sticks 1\ncell c\njoint a metal 0 0\nend\n", "d:4: end", "it has no grid"),
    design("a byte order mark", "\ufeff" + INVERTER, "d:1: ", "a byte order mark stands in front of"),
    design("no version", INVERTER.replace("sticks 1\n", ""), "a design begins with the line 'sticks 1' or 'sticks 2'"),
    design("a grid with a name in version 1", cell("joint a metal 0 0").replace("grid", "grid g"), "d:5: grid g",
           "in version 1 the grid has no name"),
    design("CIF given to compact", boxes(*CONTACT), "d is no design: it looks like CIF"),
    design("a design that is too long", "#" * 1_048_580 + "\n" + INVERTER, "'d' has 1,04",
           "a design is at most 1,048,576 bytes long"),
]

WORDS = [
    words("no --tech", "compact inverter.sticks", "--tech FILE is missing", "compact DESIGN --tech FILE"),
    words("two files", "compact inverter.sticks row.sticks --tech nmos.toml", "word 3, 'row.sticks', is one too many"),
    words("an unknown command", "compcat inverter.sticks --tech nmos.toml", "word 1, 'compcat', is none of",
          "did you mean 'compact'?"),
    words("a list of passes without y", "compact inverter.sticks --tech nmos.toml --passes x",
          "--passes 'x': a pass on y is missing"),
    words("no piece at all", "compact inverter.sticks --tech nmos.toml --split 0",
          "--split '0': it is a number from 1 to 64"),
    words("an option that is misspelt", "check inverter.cif --teck nmos.toml",
          "word 3, '--teck', is no option of check", "did you mean --tech?"),
    words("an option of another command", "slack inverter.sticks --tech nmos.toml --split 2",
          "word 5, '--split', is no option of slack"),
    words("an option twice", "compact inverter.sticks --tech nmos.toml --tech nmos.toml",
          "word 5, '--tech', stands there for a second time"),
    words("a file that is not there", "compact invertr.sticks --tech nmos.toml",
          "there is no file 'invertr.sticks'; did you mean 'inverter.sticks'?"),
    words("a single - for standard input", "fmt -", "there is no file '-'", "standard input is the file '/dev/stdin'"),
    words("no script", "jog inverter.sticks --tech nmos.toml", "--script FILE is missing"),
]

TECHNOLOGY = [
    technology("a key that is missing", "poly_diffusion = 2 ", "# ",
               "'spacing.poly_diffusion' is missing: a line 'poly_diffusion = N' under [spacing]",
               "t.toml:14: [spacing]"),
    technology("a number with a point", "size = 4 ", "size = 4.0 ", "t.toml:31: size = 4.0",
               "'cut.size' has to be an integer; here it is a number with a point"),
    technology("an unknown key", "size = 4 ", "via = 2\nsize = 4 ", "t.toml:31: via = 2",
               "'via' is no key of [cut], which has size, enclosure"),
    technology("a unit in words", "enclosure = 2 ", "enclosure = 2 u ", "t.toml:32: enclosure = 2 u",
               "it is no TOML any more", "write the number alone"),
    technology("an odd unit", "unit = 150", "unit = 151", "t.toml:5: unit = 151",
               "'unit' has to be even and not 0, it is 151"),
    technology("a spacing of 0", "cut_channel = 4", "cut_channel = 0", "t.toml:20: cut_channel = 0",
               "'spacing.cut_channel' has to be at least 1"),
    technology("a pad that is too small", "enclosure = 2", "enclosure = 0", "t.toml:31: size = 4",
               "4 + 2 * 0 u wide, and metal has to be 6 u wide"),
    ("a design given as technology", "compact inverter.sticks --tech inverter.sticks", {},
     ("is no technology: it looks like a design in sticks",)),
]

CIF = [
    ("a design given to check", "check inverter.sticks --tech nmos.toml", {},
     ("inverter.sticks is no CIF: it looks like a design in sticks", "compact inverter.sticks --tech FILE")),
    cif("no E", "L NM;\nB 1200 1200 0 0;\n", "the text ends without E"),
    cif("a bad number", "L NM;\nB 0 1200 0 0;\nE\n", "m:2:1: B 0 1200 0 0", "the length of the box is 0"),
    cif("a box with a number missing", "L NM;\nB 1200 0 0;\nE\n", "m:2:1: B 1200 0 0", "B and four numbers",
        "here are 3 numbers"),
    cif("a wire of CIF", "L NM;\nW 600 0 0 1200 0;\nE\n", "m:2:1: W 600",
        "'W' is a wire of CIF, which is not read here"),
    cif("a call of an unknown symbol", "DS 1;\nL NM;\nB 1200 1200 0 0;\nDF;\nC 2 T 0 0;\nE\n", "m:5:1: C 2 T 0 0",
        "symbol 2 is not defined above; those above are 1"),
    cif("an odd scale", "DS 1 1 4;\nL NM;\nB 2400 2401 0 0;\nDF;\nC 1;\nE\n", "m:3:1: B 2400 2401",
        "the scale of symbol 1 is 1/4: 2401 times 1 is no multiple of 4: m:1:1"),
    cif("a box before its layer", "L NM;\nDS 1;\nB 1200 1200 0 0;\nDF;\nE\n", "m:3:1: B",
        "no layer stands for this box", "a symbol begins without a layer", "m:2:1: DS 1"),
]

RULES = [
    cif("narrow metal", boxes(("NM", 0, 4, 0, 20)), "box 0: metal (NM), x 0 to 4, y 0 to 20 u", "m:2:1: B",
        "metal is at least 6 u wide and high (width.metal); this box is 4 by 20 u"),
    cif("a cut that is too large", boxes(CONTACT[0], CONTACT[1], ("NC", 1, 7, 1, 7)), "box 2: cut (NC)", "m:6:1: B",
        "a cut is 4 by 4 u (cut.size); this one is 6 by 6 u"),
    cif("poly beside diffusion", boxes(("NP", 0, 4, 0, 20), ("ND", 5, 9, 0, 20)), "box 0: poly", "box 1: diffusion",
        "at least 2 u apart (spacing.poly_diffusion); they lie 1 u apart", "1 u or more away"),
    cif("a cut at the edge of its pad", boxes(("NM", 0, 8, 0, 8), ("ND", 0, 8, 0, 8), ("NC", 3, 7, 2, 6)),
        "box 2: cut", "by 2 u on all sides (cut.enclosure)", "the best box goes 1 u past it"),
    cif("metal beside metal", boxes(("NM", 0, 6, 0, 20), ("NM", 9, 15, 0, 20)), "m:2:1: B", "m:4:1: B",
        "at least 6 u apart (spacing.metal); they lie 3 u apart", "3 u or more away"),
    cif("poly beside poly, in a call", "DS 1;\n" + boxes(("NP", 0, 4, 0, 20))[:-2]
        + "DF;\nC 1 T 0 0;\nC 1 T 900 0;\nE\n", "m:3:1: B", "by the call m:5:1: C 1 T 0 0",
        "by the call m:6:1: C 1 T 900 0",
        "at least 4 u apart (spacing.poly); they lie 2 u apart"),
    cif("a cut at a channel", boxes(FET[0], ("ND", 0, 8, -4, 14), ("NM", 0, 8, 5, 13), ("NC", 2, 6, 7, 11)),
        "(spacing.cut_channel); they lie 3 u apart", "1 u or more away"),
    cif("diffusion beside diffusion", boxes(("ND", 0, 4, 0, 20), ("ND", 8, 12, 0, 20)),
        "at least 6 u apart (spacing.diffusion); they lie 4 u apart", "2 u or more away"),
    cif("a cut beside a cut", boxes(("NM", 0, 14, 0, 8), ("ND", 0, 14, 0, 8), ("NC", 2, 6, 2, 6), ("NC", 8, 12, 2, 6)),
        "box 2: cut", "box 3: cut", "(spacing.cut); they lie 2 u apart"),
    cif("an implant at a channel", boxes(*FET, ("NI", 9, 20, 0, 4)), "box 2: implant",
        "at least 3 u apart (spacing.implant_channel); they lie 1 u apart"),
    cif("poly that crosses two strips of diffusion and a bit", boxes(*FET, ("ND", 10, 14, -4, 8)), "box 0: poly",
        "box 1: diffusion", "overlaps a further box of the other's layer: box 2"),
    cif("poly that ends on diffusion", boxes(("NP", -4, 8, 0, 4), FET[1]), "box 0: poly (NP), x -4 to 8",
        "box 1: diffusion (ND)", "to the right poly ends with diffusion: 4 u are missing", command="extract"),
]

LISTS = [
    cif("masks drawn by hand", "L ND; B 1200 3000 0 600;\nL NP; B 2300 600 -50 0;\nL NC; B 600 600 0 1500;\n"
        "L NM; B 1200 1200 0 1600;\nE\n", "rule 3, crossing:", "m:2:7: B 2300 600 -50 0",
        "to the right poly goes 3.33333 u past diffusion: 0.666667 u are missing", "rule 5, cut.enclosure:",
        "box 2: cut (NC), x -2 to 2, y 8 to 12 u", "the best box goes 1.33333 u past it", "mending these may show more",
        "rules 10 to 12", command="breaks"),
    cif("masks that keep the rules", "L NM; B 900 900 0 0; E", "no rule is broken in m", command="breaks"),
    cif("metal in three places", "DS 1; L NM; B 900 900 0 0; DF; C 1; C 1 T 1700 0; C 1 T 0 1700; E",
        "rule 6, spacing.metal:", "by the call m:1:37: C 1 T 1700 0", "they lie 5.33333 u apart",
        "there are more breaks than these", command="breaks --most 1"),
    words("too many breaks", "breaks inverter.cif --tech nmos.toml --most 65537",
          "--most '65537': it is a number from 1 to 65,536", "breaks CIF --tech FILE [--most N]"),
]

NETS = [
    design("a wire that was forgotten", INVERTER.replace("wire diff d o\n", ""), "parts on two lines are not",
           "net 1: nothing is joined to d.high", words="nets d --tech nmos.toml"),
    design("a wire too many", INVERTER.replace("wire diff d o\n", "wire diff d o\nwire metal o v\n"),
           "transistor l: its low and its high side are both on net 1", words="nets d --tech nmos.toml"),
    compact("a port of two wires, to nets", "joint a metal 0 0", "port in left metal 0", "wire metal in a",
            "wire metal in a", told=("d:6: wire metal in a",), words="nets d --tech nmos.toml"),
]

SCRIPTS = [
    ("a line that is no jog", "jog inverter.sticks --tech nmos.toml --script s", {"s": "# bends\njog inv 11 2\n"},
     ("s:2: jog inv 11 2", "left or right is missing", "jog CELL K R left or right")),
    ("a line that is no edit", "edit inverter.sticks --tech nmos.toml --script s", {"s": "add inv x g v = 30\n"},
     ("s:1: add inv x g v = 30", "at column 15: '=' is no word", "add CELL AXIS A B OP N or drop CELL K")),
    ("an edit that is refused", "edit inverter.sticks --tech nmos.toml --script s",
     {"s": "drop inv 0\nadd inv y g w <= 40\n"},
     ("s:1: drop inv 0", "'inv' has no limit 0", "s:2: add inv y g w <= 40", "'w': there is no node")),
]

MISTAKES = [*CLASHES, *CYCLES, *GRIDS, *NAMES, *LANGUAGE, *WORDS, *TECHNOLOGY, *CIF, *RULES, *LISTS, *NETS, *SCRIPTS]
