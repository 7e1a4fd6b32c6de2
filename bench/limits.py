#!/usr/bin/env python3
"""Runs the program at its limits and one past them, on texts too large for a test: limits.py [PROGRAM]

Each line has what was tried, how it was answered, the user seconds, and the most memory that the program held, in MB
(some 15 MB are those of this script). A line that is not answered as it has to be ends with 'WRONG'; the last line is
'N wrong', and the status 1 where N is not 0."""
import os, resource, shutil, sys, tempfile
from compact import PROGRAM, TECH

COMPACT, CHECK, EXTRACT = "compact d --tech t", "check d --tech t", "extract d --tech t"
BREAKS, NETS = "breaks d --tech t --most 65536", "nets d --tech t"
DESIGN, CIF = 1048576, 67108864


def joints(n, wide):
    return "".join("joint j%d metal %d %d\n" % (k, k % wide, k // wide) for k in range(n))


def one_cell(body):
    return "sticks 1\ncell t\n" + body + "end\ngrid\nrow t\nend\n"


def copies(n):
    return ("sticks 1\ncell a\n" + joints(n, 16) + "end\ncell b\n"
            + "".join("use u%d a %d %d\n" % (k, k % 16 * 16, k // 16 * 16) for k in range(256))
            + "end\ngrid\nrow b\nend\n")


def wired(limits):
    """Two rows of joints, one behind the other, each of one net."""
    body = ""
    for name, count, start in (("a", 1024, 0), ("b", 1022, 1024)):
        body += "".join("joint %s%d metal %d 0\n" % (name, k, start + k) for k in range(count))
        body += "".join("wire metal %s%d %s%d\n" % (name, k, name, k + 1) for k in range(count - 1))
    return one_cell(body + "limit x a0 a1 >= 0\n" * limits)


def columns(n):
    return "sticks 1\ncell a\n" + joints(1024, 1) + "end\ngrid\nrow" + " a" * n + "\nend\n"


def wires(n):
    """A row of cells of one wire each, from border to border."""
    return ("sticks 1\ncell f\nport l left metal 0\nport r right metal 0\nwire metal l r\nend\ngrid\nrow" + " f" * n
            + "\nend\n")


def long_names(n):
    """A row of cells of 1,024 joints, by uses 16 deep, with names of 32 letters."""
    cells = ["cell c1\n" + "".join("joint j%031d metal %d %d\n" % (k, k % 32, k // 32) for k in range(1024)) + "end\n"]
    cells += ["cell c%d\nuse u%031d c%d 0 0\nend\n" % (k, k, k - 1) for k in range(2, 17)]
    return "sticks 2\n" + "".join(cells) + "grid g%031d\nrow" % 0 + " c16" * n + "\nend\n"


def filled(text, length, filling):
    """A text that is filled with whole fillings, and then blanks, after its prefix and before its end."""
    prefix, end = text
    room = length - len(prefix) - len(end)
    return prefix + filling * (room // len(filling)) + " " * (room % len(filling)) + end


def long_design(length):
    prefix, end = "sticks 1\ncell t\njoint a metal 0 0\njoint b metal 1 0\n", "end\ngrid\nrow t\nend\n"
    return filled((prefix, end), length, "limit x a b >= 0\n")


def symbols(length):
    texts, size = [], 1
    for k in range(length):
        texts.append("DS%d;DF;" % k)
        size += len(texts[-1])
        if size > length:
            break
    return "".join(texts[:-1]) + " " * (length - size + len(texts[-1])) + "E"


def apart(n, near=0):
    """Metal boxes in rows of 1,024, each apart from all others, but for some rows more that are too near to another."""
    return ("DS 1;L NM;" + "".join("B 900 900 %d 0;" % (2000 * k) for k in range(1024)) + "DF;"
            + "".join("C 1 T 0 %d;" % (4000 * k) for k in range(n))
            + "".join("C 1 T 0 %d;" % (4000 * k + 1000) for k in range(near)) + "E")


NO_BOXES = (9, b"sticks: too large: boxes\n")
ROWS = [
    # What it is, the words, the text, the status, and how the report begins.
    ("4,194,304 edges", COMPACT, lambda: wired(2058), 0, b"pass 1 x edges 4194304 "),
    ("4,194,305 edges", COMPACT, lambda: wired(2059), 9, b"sticks: too large: edges\n"),
    ("65,536 items, limits and copies", COMPACT, lambda: copies(255), 0, b"pass 1 x edges "),
    ("65,792 items and copies", COMPACT, lambda: copies(256), 9, b"sticks: too large: items\n"),
    ("1,048,576 boxes of a grid", COMPACT, lambda: columns(1024), 0, b"pass 1 x edges 2049 "),
    ("1,049,600 boxes of a grid", COMPACT, lambda: columns(1025), *NO_BOXES),
    ("524,000 instances, as many as a text may name", COMPACT, lambda: wires(524000), 0, b"pass 1 x edges 2 "),
    ("1,048,576 boxes of a grid, nets", NETS, lambda: columns(1024), 0, b""),
    ("1,049,600 boxes of a grid, nets", NETS, lambda: columns(1025), *NO_BOXES),
    ("1,048,576 boxes of a grid, nets with names of 564 letters", NETS, lambda: long_names(1024), 0, b""),
    ("1,048,576 boxes of a CIF text, check", CHECK, lambda: apart(1024), 0, b""),
    ("1,048,576 boxes of a CIF text, breaks", BREAKS, lambda: apart(1024), 0, b""),
    ("1,048,576 boxes of a CIF text, with 65,536 breaks", BREAKS, lambda: apart(960, 64), 0, b""),
    ("1,048,576 boxes of a CIF text, extract", EXTRACT, lambda: apart(1024), 0, b""),
    ("1,049,600 boxes of a CIF text", CHECK, lambda: apart(1025), *NO_BOXES),
    ("1,048,576 bytes of design, most of them limits", COMPACT, lambda: long_design(DESIGN), 0, b"pass 1 x edges "),
    ("1,048,576 bytes of design, fmt", "fmt d", lambda: long_design(DESIGN), 0, b""),
    ("1,048,577 bytes of design", COMPACT, lambda: long_design(DESIGN + 1), 5, b"sticks: too long: design\n"),
    ("67,108,864 bytes of CIF, blanks", CHECK, lambda: filled(("E", ""), CIF, " "), 0, b""),
    ("67,108,865 bytes of CIF", CHECK, lambda: filled(("E", ""), CIF + 1, " "), 5, b"sticks: too long: cif\n"),
    ("67,108,864 bytes of CIF, calls of nothing", CHECK, lambda: filled(("DS1;DF;", "E"), CIF, "C1;"), 0, b""),
    ("67,108,864 bytes of CIF, boxes of no layer that counts", CHECK, lambda: filled(("LX;", "E"), CIF, "B2 2 0 0;"),
     0, b""),
    ("67,108,864 bytes of CIF, boxes", CHECK, lambda: filled(("LNI;", "E"), CIF, "B2 2 0 0;"), *NO_BOXES),
    ("67,108,864 bytes of CIF, symbols", CHECK, lambda: symbols(CIF), 0, b""),
    ("67,108,864 bytes of CIF, open parentheses", CHECK, lambda: filled(("", ""), CIF, "("), 12,
     b"sticks: byte 67108864: NoEnd\n"),
]


def run(words):
    """The status, the output's length, the report, the user seconds and the memory in MB."""
    streams = [os.open(name, os.O_RDWR | os.O_CREAT | os.O_TRUNC) for name in ("out", "err")]
    actions = [(os.POSIX_SPAWN_DUP2, stream, number) for stream, number in zip(streams, (1, 2))]
    pid = os.posix_spawn(PROGRAM, ["sticks", *words.split()], {}, file_actions=actions)
    _, code, used = os.wait4(pid, 0)
    out, err = (os.pread(stream, 1 << 20, 0) for stream in streams)
    for stream in streams:
        os.close(stream)
    return os.waitstatus_to_exitcode(code), out, err, used.ru_utime + used.ru_stime, used.ru_maxrss / 1024


def place(text):
    """Writes the text, by a process of its own so that this one stays small."""
    child = os.fork()
    if child == 0:
        with open("d", "w") as file:
            file.write(text())
        os._exit(0)
    os.waitpid(child, 0)


def main():
    wrong, asked = 0, sys.argv[2:]
    with tempfile.TemporaryDirectory() as folder:
        os.chdir(folder)
        shutil.copy(TECH, "t")
        for what, words, text, status, report in ROWS:
            if asked and not any(word in what for word in asked):
                continue
            place(text)
            ended, out, err, seconds, megabytes = run(words)
            good = ended == status and err.startswith(report) and (status == 0) == bool(out)
            wrong += not good
            print("%-58s %3d, %.2f s, %4d MB%s" % (what, ended, seconds, megabytes, "" if good else " WRONG %r"
                                                   % err[:80]), flush=True)
        os.chdir("/")
    print("%d wrong" % wrong)
    return 1 if wrong else 0


if __name__ == "__main__":
    if sys.argv[1:2] in (["--help"], ["-h"]):
        print(__doc__.strip())
        sys.exit()
    sys.exit(main())
