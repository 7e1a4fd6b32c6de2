#!/usr/bin/env python3
"""Tests bin/build, and how bin/sticks calls it, with six crates and an rt that proves nothing."""
import os
import shutil
import signal
import subprocess
import tempfile
import time
import unittest
from pathlib import Path

BIN = Path(__file__).resolve().parent
CRATES = {"low": "", "left": "low", "right": "low io", "high": "left right", "sticks": "high", "other": "low"}
CALL = ["call", "ci", "None"]
# It does what bin/build rests on: the words of rt, its lines, where it puts the program, and that it keeps beside
# itself what it proved. The file fails names a crate whose proof fails; the file calls gets a line for all that
# happens.
RT = r'''#!/usr/bin/env python3
import os, pathlib, subprocess, sys, threading, time
from concurrent.futures import ThreadPoolExecutor

kit, here = pathlib.Path(__file__).parent, pathlib.Path.cwd()
uses = dict(line.split(":") for line in (here / "crates.txt").read_text().splitlines())
fails, runs, printing = (kit / "fails").read_text().split(), {}, threading.Lock()

def say(text):
    with printing:
        print(text, flush=True)

def call(*words):
    with (kit / "calls").open("a") as calls:
        print(*words, file=calls)

def prove(name):
    if not all(runs[dep].result() for dep in uses[name].split() if dep in runs):
        return say(f"rt: {name} NOT PROVED: its library failed")
    folder = here / "crates" / name
    text, kept = (folder / "src/lib.rt").read_text(), kit / f"kept-{name}"
    (folder / "out").mkdir()
    if kept.exists() and kept.read_text() == text:
        say(f"rt: {name} is kept: an earlier run proved the same")
        return True
    call("begin", name)
    child = subprocess.Popen(["sleep", "60"])
    call("child", child.pid)
    time.sleep(0.2)
    child.kill(), child.wait()
    if name in fails:
        return say(f"== {name}\nerror: {name} is wrong\nrt: {name} NOT PROVED")
    kept.write_text(text)
    call("end", name)
    say(f"== {name}\nlogic=proved\nrt: {name} proved")
    return True

files = sorted(str(it.relative_to(here)) for it in here.rglob("*") if it.is_file())
call("call", *sys.argv[1:], os.environ.get("RT_JOBS"), *files)
with ThreadPoolExecutor(2) as pool:
    for name in ("low", "left", "right", "high", "sticks"):
        runs[name] = pool.submit(prove, name)
if not runs["sticks"].result():
    sys.exit("1 passed, 1 failed")
program = here / "crates/sticks/out/sticks"
program.write_text("#!/bin/sh\nprintf '%s,' \"$@\"\n")
program.chmod(0o755)
'''


class Build(unittest.TestCase):
    def setUp(self):
        room = tempfile.TemporaryDirectory()
        self.addCleanup(room.cleanup)
        self.room = Path(room.name).resolve()
        texts = {f"bin/{name}": (BIN / name).read_text() for name in ("build", "sticks")}
        texts.update({f"crates/{name}/{file}": "" for name in CRATES for file in ("src/lib.rt", "must-fail/a.edit")})
        texts["crates.txt"] = "# a comment\n" + "".join(f"{name}: {deps}\n" for name, deps in CRATES.items())
        for name, text in {**texts, "HANDLES": "", "kit/rt": RT, "kit/fails": "", "kit/calls": ""}.items():
            (self.room / name).parent.mkdir(parents=True, exist_ok=True)
            (self.room / name).write_text(text)
            (self.room / name).chmod(0o755)
        (self.room / "tmp").mkdir()
        self.program = self.room / "crates/sticks/out/sticks"

    def start(self, name, *words):
        env = {**os.environ, "PATH": f"{self.room}/kit:{os.environ['PATH']}", "TMPDIR": f"{self.room}/tmp"}
        how = {"stdin": subprocess.DEVNULL, "stdout": subprocess.PIPE, "stderr": subprocess.PIPE, "text": True}
        # A shell has what it starts in the background ignore SIGINT.
        heeds = lambda: signal.signal(signal.SIGINT, signal.SIG_DFL)
        return subprocess.Popen([str(self.room / "bin" / name), *words], env=env, preexec_fn=heeds, **how)

    def end(self, started):
        out, said = started.communicate(timeout=60)
        return started.returncode, out, said

    def calls(self):
        return (self.room / "kit/calls").read_text().splitlines()

    def test_in_a_copy(self):
        words = ["--jobs", "2", "--every", "0.1", str(self.program), "fmt", "--", "--jobs"]
        status, out, said = self.end(self.start("build", *words))
        self.assertEqual((status, out), (0, "fmt,--,--jobs,"))
        self.assertRegex(said, r"\nsticks: [12] of 5 crates proved, now \w.*; 0 minutes gone, some \d+ left\n")
        sources = sorted(f"crates/{name}/src/lib.rt" for name in CRATES if name != "other")
        files = ["HANDLES", "crates.txt", *sources]
        self.assertEqual(self.calls()[0], " ".join(["call ci 2", *files]))
        self.assertEqual(list((self.room / "tmp").iterdir()), [])
        self.assertEqual(self.end(self.start("sticks", "a b")), (0, "a b,", ""))
        (self.room / "crates/low/src/lib.rt").touch()  # newer, and the same
        self.assertEqual(self.end(self.start("sticks", "c"))[:2], (0, "c,"))
        self.assertEqual(self.end(self.start("sticks", "d")), (0, "d,", ""))
        self.assertEqual(sum(line.startswith("end") for line in self.calls()), 5)
        self.assertEqual([line.split()[:3] for line in self.calls() if line.startswith("call")][1:], [CALL])

    def test_one_that_fails(self):
        for crate in ("left", "sticks"):
            (self.room / "kit/fails").write_text(crate)
            status, out, said = self.end(self.start("sticks", "fmt"))
            self.assertEqual((status, out), (70, ""))
            last = rf"error: {crate} is wrong\nrt: {crate} NOT PROVED\n$"
            self.assertRegex(said, rf"\nsticks: the build failed at {crate}; .*\n(.*\n)*{last}")
        self.assertEqual(list((self.room / "tmp").iterdir()), [])

    def test_interrupted(self):
        for times, number in enumerate((signal.SIGINT, signal.SIGTERM), 1):
            started = self.start("sticks", "fmt")
            while started.poll() is None and self.calls().count("begin left") < times:
                time.sleep(0.02)
            started.send_signal(number)
            self.assertEqual(self.end(started)[:2], (128 + number, ""))
            time.sleep(0.1)
            children = [Path("/proc", line.split()[1], "cmdline") for line in self.calls() if line.startswith("child")]
            self.assertFalse([it for it in children if it.exists() and it.read_bytes()])  # none where one has ended
        self.assertEqual(self.end(self.start("sticks", "fmt"))[:2], (0, "fmt,"))
        self.assertEqual(self.calls().count("begin low"), 1)

    def test_two_at_once(self):
        one, other = self.start("sticks", "one"), self.start("sticks", "other")
        (_, first, said), (_, second, more) = self.end(one), self.end(other)
        self.assertEqual((first, second), ("one,", "other,"))
        self.assertIn("waiting for a build that runs already", said + more)
        self.assertEqual(sum(line.startswith("call") for line in self.calls()), 1)


if __name__ == "__main__":
    unittest.main()
