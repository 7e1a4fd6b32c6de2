#!/usr/bin/env python3
"""Runs the program on hostile inputs: fuzz.py SEED COUNT [--from I] [--program P] [--corpus FOLDER].. [--keep FOLDER]

Each input is made from SEED and its number alone (from I on, 0 if not given), so `fuzz.py SEED 1 --from I` makes input
I again. Inputs are designs, technologies, CIF texts and words: changed examples (and changed files of the corpora:
*.sticks, *.toml, *.cif, or d, t and c) and made ones. What is looked for:
  - an end by a signal, a number that the manual does not have, want of memory, more than 10 s or 700 MB
  - an output beside a refusal; an output, a report or a refusal's line that is not of the manual's form; a walk or a
    cycle that does not add up
  - masks that `compact` wrote and that `check` does not find `ok`, `breaks` has a break of or `extract` refuses;
    `check`, `breaks` and `extract` that contradict one another
  - `slack` and `jog` that are refused otherwise than `compact`, a jogged design that is not laid out, or with a wider
    cell; `nets` that is refused otherwise, or tells other nets and transistors than `extract` of the masks
  - a text of `fmt` that `fmt` changes, or that `compact` answers otherwise than the design that it was made of
  - another answer to the same words and files, or with `--split` or with `--tech=FILE`
The files of whatever is found are kept, in `fuzz-found` if no folder is given. The last line is 'N found', and the
status 1 where N is not 0."""
import argparse, collections, os, random, re, resource, shutil, signal, sys, tempfile, time
import fuzz_texts

HERE = os.path.dirname(os.path.abspath(__file__))
EXAMPLES = os.path.join(HERE, "..", "examples")
MOST_SECONDS, MOST_KILOBYTES = 10, 700 * 1024

NAME = rb"[A-Za-z][A-Za-z0-9_]{0,31}"
NUMBER = rb"-?\d+"
OWNER = rb"(?:%s(?:\.%s)*|#\d+)" % (NAME, NAME)
PLACE = rb"(?:0|%s:%s|%s\|)" % (NAME, OWNER, NAME)
STEP = rb"%s -> %s %s (?:size|extent|overlap|margin|limit|pitch|port|space)\n" % (PLACE, PLACE, NUMBER)
PASS = rb"pass \d+ [xy] edges \d+ backward \d+ rounds \d+\n(?:cell %s size \d+ kept \d+\n(?:%s)+)+" % (NAME, STEP)
LINE_KINDS = (rb"BadByte|NumberTooLarge|BadLine|Unended|TooManyCells|RepeatedName|UsedPorts|UnknownName|UseCycle"
              rb"|UseDepth|FarPlace|BadSize|NarrowWire|WrongTerminal|NotStraight|WrongLayer|WrongSide|PortWires"
              rb"|WideWire|BadLimit|NoBuried")
REFUSALS = {
    2: rb"sticks: usage\n",
    3: rb"sticks: cannot read (?:design|technology|cif|script)\n",
    5: rb"sticks: too long: (?:design|technology|cif|script)\n",
    6: rb"sticks: technology: (?:NotToml|(?:Missing|WrongType|OutOfRange|OddWidth|ZeroSpacing) [a-z_.]+|Unknown "
       rb".*|OddGrid.*|ShortChannel|ShortExtension|NarrowFet|PadTooSmall)\n",
    7: rb"sticks: line [1-9]\d*: (?:%s)\n" % LINE_KINDS,
    8: rb"sticks: grid(?: %s)?: (?:Empty|UnknownCell \d+ \d+|RaggedRow \d+|PortMismatch \d+ \d+ (?:right|top) \d+)\n"
    % NAME,
    9: rb"sticks: too large: (?:items|boxes|edges|extent)\n",
    10: rb"sticks: clash in %s between %s and %s\n" % (NAME, OWNER, OWNER),
    11: rb"(?:%s)*pass \d+ [xy] unsatisfiable length [1-9]\d*\n(?:%s)+" % (PASS, STEP),
    12: rb"sticks: byte \d+: (?:BadCommand|BadNumber|NestedDefinition|RepeatedSymbol|UnknownSymbol|NoLayer|OddScale"
        rb"|TooDeep|NoEnd|AfterEnd)\n",
    13: rb"sticks: rule (?:[1-9]|1[012]): boxes \d+ \d+\n",
    14: rb"sticks: not proper: boxes \d+ \d+\n",
    16: rb"sticks: script line [1-9]\d*\n",
}
REFUSALS = {status: re.compile(form, re.S) for status, form in REFUSALS.items()}
BOX = rb"B [1-9]\d* [1-9]\d* %s %s;\n" % (NUMBER, NUMBER)
MASKS = re.compile(rb"(?:DS \d+ \d+ 1;\n9 %s;\n(?:L N[DPCMIB];\n(?:%s)+)*DF;\n)+(?:C \d+ T \d+ \d+;\n)+E\n"
                   % (NAME, BOX))
REPORT = re.compile(rb"(?:%s)+" % PASS)
NETS = re.compile(rb"nets (\d+) devices (\d+)\n((?:net \d+ nd \d+ np \d+ nm \d+\n)*)((?:device \d+ (?:enh|dep) w \d+ l "
                  rb"\d+ gate \d+ low \d+ high \d+ at %s %s\n)*)" % (NUMBER, NUMBER))
LENGTH = rb" -?\d+\.\d{3}"
BREAK = rb"rule (?:[1-9]|1[012]) [a-z_.]+(?: least%s)?(?: box \d+ N[DPCMIB](?:%s){4}){1,2}\n" % (LENGTH, LENGTH)
BREAKS = re.compile(rb"breaks (\d+)\n((?:%s)*)(?:more\n)?" % BREAK)
PART = rb"(?:(?:%s\.)?\d+\.\d+:)?%s(?:\.%s)*" % (NAME, NAME, NAME)
NAMED = re.compile(rb"nets (\d+) devices (\d+)\n((?:net \d+ nd \d+ np \d+ nm \d+(?: %s)+\n)*)"
                   rb"((?:device \d+ (?:enh|dep) %s gate \d+ low \d+ high \d+\n)*)" % (PART, PART))
SLACKS = re.compile(rb"axis x pass \d+\n((?:cell %s size \d+\n(?:%s:%s least %s most %s slack \d+\n)*)+)axis y pass "
                    rb"\d+\n((?:cell %s size \d+\n(?:%s:%s least %s most %s slack \d+\n)*)+)"
                    % (NAME, NAME, OWNER, NUMBER, NUMBER, NAME, NAME, OWNER, NUMBER, NUMBER))
SLACK = re.compile(rb"\S+ least (%s) most (%s) slack (\d+)\n" % (NUMBER, NUMBER))
JOGS = re.compile(rb"(?:jog \d+ %s (?:rejected|accepted \d+ -> \d+)\n)*" % NAME)
STEPS = re.compile(rb"(\S+) -> (\S+) (%s) \w+\n" % NUMBER)

Answer = collections.namedtuple("Answer", "status out err")


class Hung(Exception):
    pass


def hung(*_):
    raise Hung


class Runner:
    """Runs the program in a folder of its own, in memory where there is such a place."""

    def __init__(self, program, space=4 << 30):
        self.program = program
        self.folder = tempfile.mkdtemp(prefix="fuzz-", dir="/dev/shm" if os.path.isdir("/dev/shm") else None)
        os.chdir(self.folder)
        self.streams = [os.open(name, os.O_RDWR | os.O_CREAT) for name in ("out", "err")]
        self.actions = [(os.POSIX_SPAWN_DUP2, self.streams[0], 1), (os.POSIX_SPAWN_DUP2, self.streams[1], 2)]
        self.runs, self.seconds, self.kilobytes = 0, 0.0, 0
        resource.setrlimit(resource.RLIMIT_CORE, (0, 0))
        resource.setrlimit(resource.RLIMIT_AS, (space, space))
        signal.signal(signal.SIGALRM, hung)

    def put(self, name, text):
        with open(name, "wb") as file:
            file.write(text)

    def run(self, words):
        """The answer to these words, and what is wrong with how the program ended."""
        for stream in self.streams:
            os.ftruncate(stream, 0)
            os.lseek(stream, 0, os.SEEK_SET)
        began = time.monotonic()
        pid = os.posix_spawn(self.program, [b"sticks", *words], {}, file_actions=self.actions)
        signal.setitimer(signal.ITIMER_REAL, 6 * MOST_SECONDS)
        try:
            _, code, used = os.wait4(pid, 0)
        except Hung:
            os.kill(pid, signal.SIGKILL)
            _, code, used = os.wait4(pid, 0)
        signal.setitimer(signal.ITIMER_REAL, 0)
        took = time.monotonic() - began
        self.runs, self.seconds, self.kilobytes = (self.runs + 1, max(self.seconds, used.ru_utime),
                                                   max(self.kilobytes, used.ru_maxrss))
        out, err = (os.pread(stream, os.fstat(stream).st_size, 0) for stream in self.streams)
        status = os.waitstatus_to_exitcode(code)
        wrong = []
        if status < 0:
            wrong.append("signal %d after %.1f s" % (-status, took))
        if max(used.ru_utime, min(took, MOST_SECONDS)) >= MOST_SECONDS:
            wrong.append("%.1f s (%.1f s of user time)" % (took, used.ru_utime))
        if used.ru_maxrss > MOST_KILOBYTES:
            wrong.append("%d MB" % (used.ru_maxrss // 1024))
        return Answer(status, out, err), wrong


def adds_up(steps, length, start, end):
    """Whether the steps lead from start to end (round to itself where there is no start) and have this length."""
    if not steps:
        return False
    chained = all(a[1] == b[0] for a, b in zip(steps, steps[1:]))
    ends = (steps[0][0], steps[-1][1]) == (start, end) if start else steps[0][0] == steps[-1][1]
    return chained and ends and sum(int(n) for _, _, n in steps) == length


def walks_add_up(report):
    for part in re.split(rb"^(?=cell |pass )", report, flags=re.M):
        head = part.split(b" ")
        steps = STEPS.findall(part)
        if head[0] == b"cell" and not adds_up(steps, int(head[3]), b"0", head[1] + b"|"):
            return False
        excess = re.search(rb" unsatisfiable length (\d+)", part)
        if excess and not adds_up(steps, int(excess[1]), None, None):
            return False
    return True


def last_on_x(report):
    """The part of a report that tells the last pass on x."""
    return [part for part in re.split(rb"^(?=pass )", report, flags=re.M) if re.match(rb"pass \d+ x", part)][-1]


def form_faults(command, answer, text):
    """What is wrong with the form of an answer, where text is what was read, or is not known."""
    status, out, err = answer
    if status == 1:
        return ["want of memory"]
    if status != 0:
        form = REFUSALS.get(status)
        if form is None:
            return [] if status < 0 else ["status %d" % status]
        wrong = [] if not out else ["an output beside a refusal"]
        if not form.fullmatch(err):
            wrong.append("a line of another form")
        elif status == 11 and not walks_add_up(err):
            wrong.append("a cycle that does not add up")
        elif text is None:
            pass
        elif status == 12 and int(err.split()[2][:-1]) > len(text):
            wrong.append("a byte past the end")
        elif status == 7 and int(err.split()[2][:-1]) > max(1, text.count(b"\n") + (not text.endswith(b"\n"))):
            wrong.append("a line past the end")
        return wrong
    if command == b"compact":
        good = MASKS.fullmatch(out) and REPORT.fullmatch(err) and walks_add_up(err)
    elif command == b"check":
        good = out == b"ok\n" and not err
    elif command == b"breaks":
        found = BREAKS.fullmatch(out)
        good = found and not err and found[2].count(b"\n") == int(found[1])
    elif command == b"extract":
        found = NETS.fullmatch(out)
        good = found and not err and found[3].count(b"\n") == int(found[1]) and found[4].count(b"\n") == int(found[2])
    elif command == b"nets":
        found = NAMED.fullmatch(out)
        good = found and not err and found[3].count(b"\n") == int(found[1]) and found[4].count(b"\n") == int(found[2])
    elif command == b"slack":
        good = (SLACKS.fullmatch(out) and not err
                and all(int(most) - int(least) == int(slack) for least, most, slack in SLACK.findall(out)))
    elif command == b"jog":
        good = (JOGS.fullmatch(err)
                and all(int(after) < int(before) for before, after in re.findall(rb"(\d+) -> (\d+)", err)))
    elif command == b"bench":
        good = re.fullmatch(rb"bench \d+ items \d+ kept \d+ \d+ size \d+ \d+ nets \d+ devices \d+\n", out) and not err
    else:
        good = not err
    return [] if good else ["an output or a report of another form"]


class Inputs:
    """Makes inputs, runs them and tells what is wrong."""

    def __init__(self, runner, corpora):
        self.runner = runner
        self.designs = fuzz_texts.corpus(corpora, (".sticks",), ("d",))
        self.techs = fuzz_texts.corpus([EXAMPLES], (".toml",), ())
        self.cifs = fuzz_texts.corpus(corpora, (".cif",), ("c",))

    def ask(self, words, text):
        answer, wrong = self.runner.run(words)
        return answer, wrong + form_faults(words[0] if words else b"", answer, text)

    def ok(self, words, wrong, what, text=b""):
        """The answer to words that have to be done."""
        answer, faults = self.ask(words, text)
        wrong += faults
        if answer.status != 0:
            wrong.append("%s: status %d %r" % (what, answer.status, answer.err[:80]))
        return answer

    def same(self, words, wanted, wrong, what, text=b""):
        answer, faults = self.ask(words, text)
        wrong += faults
        if answer != wanted:
            wrong.append("%s: another answer, %d" % (what, answer.status))

    def design(self, rng, text):
        """A design through `compact`, `fmt`, `slack` and `jog`, and its masks through `check` and `extract`."""
        run = self.runner
        run.put("d", text)
        run.put("t", self.techs[rng.choice(sorted(self.techs))])
        passes = ([] if rng.random() < 0.7 else [b"--passes", b"".join(rng.choices([b"x", b"y"], k=rng.randint(0, 6)))
                                                 + b"xy"])
        words = [b"compact", b"d", b"--tech", b"t", *passes]
        netlist = b""
        answer, wrong = self.ask(words, text)
        if answer.status == 0:
            run.put("c", answer.out)
            if self.ok([b"check", b"c", b"--tech", b"t"], wrong, "check of the masks", answer.out).out != b"ok\n":
                wrong.append("check of the masks")
            if self.ok([b"breaks", b"c", b"--tech", b"t"], wrong, "breaks of the masks").out != b"breaks 0\n":
                wrong.append("breaks of the masks")
            netlist = self.ok([b"extract", b"c", b"--tech", b"t"], wrong, "extract of the masks", answer.out).out
        if rng.random() < 0.5:
            wrong += self.named(text, answer, netlist)
        if rng.random() < 0.4:
            wrong += self.moved(rng, text, answer, passes)
        formatted, faults = self.ask([b"fmt", b"d"], text)
        wrong += faults
        if formatted.status == 0:
            run.put("d", formatted.out)
            if self.ok([b"fmt", b"d"], wrong, "fmt of fmt", formatted.out).out != formatted.out:
                wrong.append("fmt changes its own text")
            if answer.status != 7:
                other = ([b"compact", b"--tech=t", b"d", *passes]
                         + rng.choice([[], [b"--split", b"%d" % rng.randint(1, 64)]]))
                self.same(other, answer, wrong, "compact of the canonical text", formatted.out)
        elif answer.status != 7 and answer.status > 0 and answer.status != 5:
            wrong.append("compact reads what fmt refuses")
        run.put("d", text)
        return answer, wrong

    def named(self, text, compacted, netlist):
        """What is wrong with how `nets` answers over the same files: it is refused as `compact` is, but for its layouts,
        and tells what `extract` of its masks does, and names.
        """
        answer, wrong = self.ask([b"nets", b"d", b"--tech", b"t"], text)
        later = (compacted.status in (0, 10, 11)
                 or compacted.err in (b"sticks: too large: edges\n", b"sticks: too large: extent\n"))
        if (answer.status if later else answer != compacted):
            wrong.append("nets answers %d and compact %d" % (answer.status, compacted.status))
        told = re.sub(rb"(?m)^(net \d+ nd \d+ np \d+ nm \d+) .*", rb"\1", answer.out)
        told = re.sub(rb"(?m)^(device \d+ \S+) \S+", rb"\1", told)
        if netlist and told != re.sub(rb"(?m)^(device \d+ \S+) w \d+ l \d+(.*) at \S+ \S+$", rb"\1\2", netlist):
            wrong.append("nets and extract tell other nets")
        return wrong

    def moved(self, rng, text, compacted, passes):
        """What is wrong with how `slack` and `jog` answer over the same files: refused as `compact` is, and a jogged
        design is laid out.
        """
        run, wrong = self.runner, []
        slack, faults = self.ask([b"slack", b"d", b"--tech", b"t", *passes], text)
        wrong += faults
        if slack.status != compacted.status or slack.status and slack != compacted:
            wrong.append("slack answers %d and compact %d" % (slack.status, compacted.status))
        script = fuzz_texts.script(rng, text)
        run.put("s", script)
        jog, faults = self.ask([b"jog", b"d", b"--tech", b"t", b"--script", b"s", *passes], None)
        wrong += faults
        if compacted.status and jog != compacted or not compacted.status and jog.status not in (0, 16):
            wrong.append("jog answers %d and compact %d" % (jog.status, compacted.status))
        if jog.status == 0:
            run.put("j", jog.out)
            answer = self.ok([b"compact", b"j", b"--tech", b"t", *passes], wrong, "compact after jogs", jog.out)
            accepted = re.findall(rb"jog \d+ (\S+) accepted \d+ -> (\d+)\n", jog.err)
            sizes = (dict(re.findall(rb"^cell (\S+) size (\d+)", last_on_x(answer.err), re.M)) if answer.status == 0
                     else {})
            before = dict(re.findall(rb"^cell (\S+) size (\d+)", last_on_x(compacted.err), re.M))
            if (answer.status == 0 and not all(sizes[cell] == after for cell, after in dict(accepted).items()
                                               if not any(cell != c for c, _ in accepted))):
                wrong.append("another width than the one told")
            if answer.status == 0 and any(int(sizes[cell]) > int(before[cell]) for cell in before):
                wrong.append("a wider cell")
        return wrong

    def tech(self, rng):
        run = self.runner
        text = fuzz_texts.mutated_tech(rng, self.techs)
        run.put("t", text)
        run.put("d", self.designs[rng.choice(sorted(self.designs))])
        words = [b"compact", b"d", b"--tech", b"t"]
        answer, wrong = self.ask(words, self.last("d"))
        if answer.status == 0:
            run.put("c", answer.out)
            self.ok([b"check", b"c", b"--tech", b"t"], wrong, "check of the masks", answer.out)
            self.ok([b"extract", b"c", b"--tech", b"t"], wrong, "extract of the masks", answer.out)
        elif rng.random() < 0.1:
            self.same(words, answer, wrong, "the same again", self.last("d"))
        return answer, wrong

    def last(self, name):
        with open(name, "rb") as file:
            return file.read()

    def cif(self, rng, text):
        run = self.runner
        run.put("c", text)
        run.put("t", self.techs[rng.choice(sorted(self.techs))])
        answer, wrong = self.ask([b"check", b"c", b"--tech", b"t"], text)
        netlist, faults = self.ask([b"extract", b"c", b"--tech", b"t"], text)
        wrong += faults
        rule = int(answer.err.split()[2][:-1]) if answer.status == 13 and not wrong else 0
        if answer.status in (9, 12):
            agree = netlist == answer
        elif rule == 3:
            agree = netlist.status == 14 and netlist.err.split()[-2:] == answer.err.split()[-2:]
        elif rule in (1, 2):
            agree = netlist.status in (0, 14)
        else:
            agree = netlist.status == 0
        if not agree:
            wrong.append("check answers %d and extract %d" % (answer.status, netlist.status))
        return answer, wrong + self.listed(rng, text, answer)

    def listed(self, rng, text, checked):
        """What is wrong with how `breaks` answers over the same files: refused as `check` is, and its first line is the
        break that `check` tells.
        """
        most = rng.choice([1, 2, 3, 10, 1000, 65536])
        words = [b"breaks", b"c", b"--tech", b"t"] + ([] if most == 1000 else [b"--most", b"%d" % most])
        answer, wrong = self.ask(words, text)
        told = re.fullmatch(rb"sticks: rule (\d+): boxes (\d+) (\d+)\n", checked.err)
        first = re.match(rb"breaks (\d+)\nrule (\d+) .*? box (\d+) (?:.* box (\d+) )?", answer.out)
        if told:
            agree = first and int(first[1]) <= most and (first[2], first[3], first[4] or first[3]) == told.groups()
        else:
            agree = answer == (checked if checked.status else Answer(0, b"breaks 0\n", b""))
        if not agree:
            wrong.append("check answers %d, and breaks %d %r" % (checked.status, answer.status, answer.out[:80]))
        return wrong

    def words(self, rng):
        run = self.runner
        run.put("d", self.designs[rng.choice(sorted(self.designs))])
        run.put("t", self.techs["nmos.toml"])
        run.put("c", self.cifs[rng.choice(sorted(self.cifs))])
        words = fuzz_texts.words(rng)
        answer, wrong = self.ask(words, None)
        if rng.random() < 0.1:
            self.same(words, answer, wrong, "the same again", None)
        return answer, wrong

    def make(self, rng):
        """One input: its kind, the answer and what is wrong."""
        kind = rng.choices(["changed design", "made design", "technology", "changed cif", "made cif", "words"],
                           [30, 25, 13, 12, 10, 10])[0]
        if kind == "changed design":
            found = self.design(rng, fuzz_texts.mutated_design(rng, self.designs))
        elif kind == "made design":
            found = self.design(rng, fuzz_texts.made_design(rng))
        elif kind == "technology":
            found = self.tech(rng)
        elif kind == "changed cif":
            found = self.cif(rng, fuzz_texts.mutated_cif(rng, self.cifs))
        elif kind == "made cif":
            found = self.cif(rng, fuzz_texts.made_cif(rng))
        else:
            found = self.words(rng)
        return kind, *found


def main():
    reader = argparse.ArgumentParser(description=__doc__, formatter_class=argparse.RawDescriptionHelpFormatter)
    reader.add_argument("seed", type=int)
    reader.add_argument("count", type=int)
    reader.add_argument("--from", dest="first", type=int, default=0)
    reader.add_argument("--program", default=os.path.join(HERE, "..", "crates", "sticks", "out", "sticks"))
    reader.add_argument("--corpus", action="append", default=[])
    reader.add_argument("--keep", default="fuzz-found")
    asked = reader.parse_args()
    keep, began, found = os.path.abspath(asked.keep), time.monotonic(), 0
    corpora = [os.path.abspath(folder) for folder in [EXAMPLES, *asked.corpus]]
    runner = Runner(os.path.abspath(asked.program))
    inputs = Inputs(runner, corpora)
    answers = collections.Counter()
    for number in range(asked.first, asked.first + asked.count):
        kind, answer, wrong = inputs.make(random.Random("%d %d" % (asked.seed, number)))
        answers[kind, answer.status] += 1
        if wrong:
            found += 1
            folder = os.path.join(keep, "%d-%d" % (asked.seed, number))
            shutil.rmtree(folder, ignore_errors=True)
            shutil.copytree(runner.folder, folder)
            print("input %d, %s: %s" % (number, kind, "; ".join(wrong)), flush=True)
        if (number + 1 - asked.first) % 10000 == 0:
            so_far = (number + 1 - asked.first, runner.runs, time.monotonic() - began, found)
            print("%d inputs, %d runs, %.0f s, %d found" % so_far, flush=True)
    shutil.rmtree(runner.folder)
    for kind in sorted({kind for kind, _ in answers}):
        print(kind + ": " + ", ".join("%d with %d" % (n, status) for (k, status), n in sorted(answers.items())
                                      if k == kind))
    print("seed %d: %d inputs from %d on, %d runs in %.0f s; at most %.2f s of user time and %d MB"
          % (asked.seed, asked.count, asked.first, runner.runs, time.monotonic() - began, runner.seconds,
             runner.kilobytes // 1024))
    print("%d found" % found)
    return 1 if found else 0


if __name__ == "__main__":
    sys.exit(main())
