#!/usr/bin/env python3
"""Tries the edge to the operating system: edges.py [PROGRAM]

Streams that are full, closed or broken, files that cannot be read or never end, names of every kind, little memory and
a small stack. Each line says what was tried and how the program ended, and ends with 'WRONG' where that is not what the
manual says. Run as root it also reads a file that nobody else may read. The last line is 'N wrong', and the status 1
where N is not 0."""
import os, resource, shutil, signal, subprocess, sys, tempfile, time
from compact import PROGRAM

HERE = os.path.dirname(os.path.abspath(__file__))
EXAMPLES = os.path.join(HERE, "..", "examples")
COMPACT, CHECK, FMT = "compact d --tech t".split(), "check c --tech t".split(), "fmt d".split()
BREAKS, NETS = "breaks near --tech t --most 65536".split(), "nets many --tech t".split()
NO_OUTPUT = b"sticks: cannot write output\n"
LONG = "a" * 5000
SECONDS = 20


class Edge:
    def __init__(self):
        self.wrong = 0
        self.tried = 0
        self.whole = self.run(COMPACT)

    def run(self, words, before=None, **streams):
        """The status, the output and the report; what is written to a stream that is given does not come back."""
        streams = {"stdout": subprocess.PIPE, "stderr": subprocess.PIPE, **streams}
        ran = subprocess.run([PROGRAM, *words], preexec_fn=before, timeout=SECONDS, **streams)
        return ran.returncode, ran.stdout, ran.stderr

    def tell(self, what, answer, *wanted):
        """Says how it ended, which has to be one of these: each a status, an output and a report, where None may be
        anything.
        """
        good = any(all(w is None or w == a for w, a in zip(want, answer)) for want in wanted)
        line = (answer[2] or b"").split(b"\n")[0].decode("utf-8", "replace")
        print("%s: %s%s%s" % (what, answer[0] if answer[0] >= 0 else signal.Signals(-answer[0]).name,
                              ", " + line if line and answer[0] else "", "" if good else " WRONG"), flush=True)
        self.wrong += not good
        self.tried += 1


def closing(*streams):
    def before():
        for stream in streams:
            os.close(stream)
    return before


def limiting(kind, size, also=None):
    def before():
        resource.setrlimit(kind, (size, size))
        if also:
            also()
    return before


def broken_pipe(edge, words, ignored, stream):
    """The answer where this stream is a pipe that nobody reads."""
    reads, writes = os.pipe()
    os.close(reads)
    before = ((lambda: signal.signal(signal.SIGPIPE, signal.SIG_IGN)) if ignored
              else (lambda: signal.signal(signal.SIGPIPE, signal.SIG_DFL)))
    answer = edge.run(words, before, **{stream: writes})
    os.close(writes)
    return answer


def streams(edge):
    _, masks, _ = edge.whole
    refused = ["compact", "bad", "--tech", "t"]
    line = b"sticks: line 1: BadLine\n"
    with open("/dev/full", "wb") as full:
        edge.tell("a full output", edge.run(COMPACT, stdout=full), (4, None, NO_OUTPUT))
        edge.tell("a full output of fmt", edge.run(FMT, stdout=full), (4, None, NO_OUTPUT))
        edge.tell("a full output of check", edge.run(CHECK, stdout=full), (4, None, NO_OUTPUT))
        edge.tell("a full output of breaks", edge.run(BREAKS, stdout=full), (4, None, NO_OUTPUT))
        edge.tell("a full output of nets", edge.run(NETS, stdout=full), (4, None, NO_OUTPUT))
        edge.tell("a full report", edge.run(COMPACT, stderr=full), (4, masks, None))
        edge.tell("both full", edge.run(COMPACT, stdout=full, stderr=full), (4, None, None))
        edge.tell("a full report at a refusal", edge.run(refused, stderr=full), (7, b"", None))
        edge.tell("a full report at usage", edge.run(["help"], stderr=full), (2, b"", None))
    edge.tell("a closed output", edge.run(COMPACT, closing(1)), (4, b"", NO_OUTPUT))
    edge.tell("a closed report", edge.run(COMPACT, closing(2)), (4, masks, b""))
    edge.tell("all streams closed", edge.run(COMPACT, closing(0, 1, 2)), (4, b"", b""))
    edge.tell("a closed input", edge.run(COMPACT, closing(0)), edge.whole)
    edge.tell("a closed output at a refusal", edge.run(refused, closing(1)), (7, b"", line))
    edge.tell("a closed report at a refusal", edge.run(refused, closing(2)), (7, b"", b""))
    with open("t", "rb") as read_only:
        edge.tell("an output that is open for reading alone", edge.run(COMPACT, stdout=read_only), (4, None, NO_OUTPUT))
    for ignored in (True, False):
        how = "a broken pipe with SIGPIPE " + ("ignored" if ignored else "not ignored")
        edge.tell(how + ", as output", broken_pipe(edge, COMPACT, ignored, "stdout"), (4, None, NO_OUTPUT))
        edge.tell(how + ", as report", broken_pipe(edge, COMPACT, ignored, "stderr"), (4, masks, None))
        edge.tell(how + ", at a refusal", broken_pipe(edge, refused, ignored, "stderr"), (7, b"", None))
    with open("small", "wb") as small:
        answer = edge.run(COMPACT,
                          limiting(resource.RLIMIT_FSIZE, 100, lambda: signal.signal(signal.SIGXFSZ, signal.SIG_IGN)),
                          stdout=small)
    edge.tell("an output file that may have 100 bytes", answer, (4, None, NO_OUTPUT))
    with open("small", "rb") as small:
        written = small.read()
    edge.tell("  and what stands there", (len(written), written, None), (100, masks[:100], None))


def files(edge):
    for name, words, file in (("a design", ["fmt"], b"design"),
                              ("a technology", ["compact", "d", "--tech"], b"technology"),
                              ("a CIF text", ["check", "--tech", "t"], b"cif")):
        line = b"sticks: cannot read %s\n" % file
        for what, path in (("missing", "none"), ("a folder", "folder"), ("a loop of links", "loop"),
                           ("a link to nothing", "dangling"), ("no name", ""), ("a name too long", LONG),
                           ("a path too deep", "folder/" * 1000 + "d"), ("below a file", "d/d"),
                           ("memory of no process", "/proc/self/mem")):
            edge.tell("%s: %s" % (name, what), edge.run([*words, path]), (3, b"", line))
        edge.tell("%s that never ends" % name, edge.run([*words, "/dev/zero"]),
                  (5, b"", b"sticks: too long: %s\n" % file))
        empty = {b"design": (7, b"", None), b"technology": (6, b"", None), b"cif": (12, b"", None)}[file]
        edge.tell("%s that is empty" % name, edge.run([*words, "/dev/null"]), empty)
    for name in (" d", "d ", "a b", "\u00e4", "d\n", "*", "~", "$HOME", "a;b", "."*3):
        shutil.copy("d", name)
        edge.tell("a design named %r" % name, edge.run(["compact", name, "--tech", "t"]), edge.whole)
    edge.tell("a design named '-d', behind --", edge.run(["compact", "--tech", "t", "--", "-d"]), edge.whole)
    edge.tell("a design named '-d'", edge.run(["compact", "-d", "--tech", "t"]), (2, b"", b"sticks: usage\n"))
    edge.tell("a name that is no text", edge.run(["compact", b"\xff", "--tech", "t"]), (2, b"", b"sticks: usage\n"))
    edge.tell("the design from a pipe", (lambda ran: (ran.returncode, ran.stdout, ran.stderr))(
        subprocess.run([PROGRAM, "compact", "/dev/stdin", "--tech", "t"], input=open("d", "rb").read(),
                       capture_output=True, timeout=SECONDS)), edge.whole)
    edge.tell("a design that is one byte too long", edge.run(["fmt", "long"]), (5, b"", b"sticks: too long: design\n"))
    if os.geteuid() == 0:
        def nobody():
            os.setgroups([])
            os.setgid(65534)
            os.setuid(65534)
        edge.tell("a design that may not be read", edge.run(["fmt", "secret"], nobody),
                  (3, b"", b"sticks: cannot read design\n"))
        edge.tell("a folder that may not be entered", edge.run(["fmt", "closed/d"], nobody),
                  (3, b"", b"sticks: cannot read design\n"))


def memory(edge):
    """All sizes of the address space in which the program starts at all."""
    no_memory = (1, b"", b"sticks: out of memory\n")
    for what, words in (("compact", COMPACT), ("check", CHECK),
                        ("compact of many joints", ["compact", "many", "--tech", "t"]),
                        ("check of many boxes", ["check", "boxes", "--tech", "t"]), ("breaks", BREAKS),
                        ("nets of many joints", NETS)):
        whole, ends, least = edge.run(words), {}, None
        for size in range(1, 129):
            try:
                answer = edge.run(words, limiting(resource.RLIMIT_AS, size << 20))
            except (OSError, subprocess.SubprocessError):
                continue
            if answer[0] == 127 or (least is None and answer[0] in (-signal.SIGSEGV, -signal.SIGKILL)):
                continue
            least = least or size
            key = "whole" if answer == whole else "want of memory" if answer == no_memory else repr(answer)[:200]
            ends.setdefault(key, []).append(size)
            if answer == whole and size > 32 and size > min(ends["whole"]) + 8:
                break
        good = set(ends) <= {"whole", "want of memory"}
        print("%s in an address space of %s MB on: %s%s"
              % (what, least, "; ".join("%s from %d to %d MB" % (k, min(v), max(v)) for k, v in ends.items()),
                 "" if good else " WRONG"), flush=True)
        edge.wrong += not good
        edge.tried += 1


def nested():
    """What nests, and the stack in KB that the manual says is enough for it."""
    def names(n):
        return ".".join("a" * n)

    for n in (80, 81, 16000):
        yield "arrays %d deep" % n, "a = " + "[" * n + "]" * n, 64
        yield "inline tables %d deep" % n, "a = " + "{a=" * n + "1" + "}" * n, 64
    for n in (80, 81, 16000):
        yield "a key of %d names" % n, names(n) + " = 1", 256
        yield "a table of %d names" % n, "[%s]" % names(n), 256
        yield "an array of tables of %d names" % n, "[[%s]]" % names(n), 256
    yield "arrays of tables, each in the one before, 80 deep", "".join("[[%s]]\n" % names(k) for k in range(1, 81)), 256
    yield "inline tables 80 deep, of 80 names each", "a = " + ("{" + names(80) + "=") * 79 + "1" + "}" * 79, 2048
    yield ("the same, below a table of 80 names", "[%s]\n%s = " % (names(80), names(80)) + ("{" + names(80) + "=") * 79
           + "1" + "}" * 79, 2048)


def least_stack(edge, words, wanted):
    """The least stack, in KB, in which the answer is this one."""
    low, high = 8, 8192
    while low < high:
        size = (low + high) // 2
        if all(edge.run(words, limiting(resource.RLIMIT_STACK, size << 10)) == wanted for _ in range(2)):
            high = size
        else:
            low = size + 1
    return low


def stack(edge):
    """Small stacks: how much is enough, by the manual, and how much is needed."""
    for name, text, kilobytes in nested():
        with open("nested", "w") as file:
            file.write(text)
        words = ["compact", "d", "--tech", "nested"]
        wanted = edge.run(words)
        answer = edge.run(words, limiting(resource.RLIMIT_STACK, kilobytes << 10))
        edge.tell("%s in a stack of %d KB (needs %d KB)" % (name, kilobytes, least_stack(edge, words, wanted)), answer,
                  (6, b"", wanted[2]))
    for name, words in (("an inverter", COMPACT), ("its masks", CHECK),
                        ("uses 16 deep", ["compact", "deep", "--tech", "t"]),
                        ("many joints", ["compact", "many", "--tech", "t"]),
                        ("parentheses 1,000,000 deep", ["check", "parentheses", "--tech", "t"]),
                        ("many boxes", ["extract", "boxes", "--tech", "t"]), ("many breaks", BREAKS),
                        ("names of many joints", NETS), ("names in uses 16 deep", ["nets", "deep", "--tech", "t"]),
                        ("a path of 400,000 names", ["fmt", "path"])):
        wanted = edge.run(words)
        answer = edge.run(words, limiting(resource.RLIMIT_STACK, 64 << 10))
        edge.tell("%s in a stack of 64 KB (needs %d KB)" % (name, least_stack(edge, words, wanted)), answer,
                  (0, *wanted[1:]))


def place():
    """The files that are tried, in this folder."""
    for name, copy in (("inverter.sticks", "d"), ("inverter.cif", "c"), ("nmos.toml", "t"), ("inverter.sticks", "-d"),
                       ("inverter.sticks", "secret")):
        shutil.copy(os.path.join(EXAMPLES, name), copy)
    os.chmod("secret", 0o600)
    os.mkdir("folder")
    os.mkdir("closed")
    shutil.copy("d", "closed/d")
    os.chmod("closed", 0o700)
    os.symlink("loop", "loop")
    os.symlink("none", "dangling")
    deep = ("sticks 1\ncell c1\njoint p metal 0 0\nend\n"
            + "".join("cell c%d\nuse u c%d 0 0\nend\n" % (k, k - 1) for k in range(2, 17)) + "grid\nrow c16\nend\n")
    many = ("sticks 1\ncell a\n" + "".join("joint j%d metal %d %d\n" % (k, k % 64, k // 64) for k in range(2048))
            + "end\ngrid\nrow a\nend\n")
    boxes, near = ("DS 1; L NM; %s DF; %s E" % ("".join("B 1200 1200 %d 0;" % (step * k) for k in range(100)),
                                                "".join("C 1 T 0 %d;" % (3000 * k) for k in range(300)))
                   for step in (3000, 1500))
    texts = {"bad": "stick\n", "deep": deep, "many": many, "boxes": boxes, "near": near,
             "parentheses": "(" * 1000000 + ")" * 1000000 + "E", "long": "#" * 1048577,
             "path": "sticks 1\ncell a\nlimit x " + "a." * 400000 + "a b >= 1\nend\ngrid\nend\n"}
    for name, text in texts.items():
        with open(name, "w") as file:
            file.write(text)


def main():
    folder = tempfile.mkdtemp()
    os.chmod(folder, 0o755)
    os.chdir(folder)
    resource.setrlimit(resource.RLIMIT_CORE, (0, 0))
    place()
    edge, began = Edge(), time.monotonic()
    for part in (streams, files, memory, stack):
        part(edge)
    os.chdir(HERE)
    shutil.rmtree(folder)
    print("%d tried in %.0f s" % (edge.tried, time.monotonic() - began))
    print("%d wrong" % edge.wrong)
    return 1 if edge.wrong else 0


if __name__ == "__main__":
    if sys.argv[1:2] in (["--help"], ["-h"]):
        print(__doc__.strip())
        sys.exit()
    sys.exit(main())
