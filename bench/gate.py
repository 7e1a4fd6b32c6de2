#!/usr/bin/env python3
"""Tells what a run of the gate from nothing costs: gate.py [NAME..]

It runs `rt ci`, and where the kit keeps what passed `rt ci --anew`, in a fresh clone of what is committed here, in a
folder for the time being (TMPDIR says where: it takes up to 10 GB), over all crates, or over the crates NAME.. and
those below them. What rt prints goes to standard error. Twice a second it looks at each process below rt and notes
what processor time it has used: a `rattle` goes to its crate, and to edits where it runs on an edited copy, to tests
where it was started with --test, and else to proofs; what it starts goes with it. The table has a row for each crate,
in processor minutes, the most first, and the sums. `not noted` is what the system counts for the whole run besides: rt
itself, the programs and tests as they run, and what was used after the last look at a process. The last lines are the
minutes that the clock went on, and rt's own last line; the status is that of rt.
"""
import os
import re
import shutil
import subprocess
import sys
import tempfile
import threading
import time
from pathlib import Path

HERE = Path(__file__).resolve().parent.parent
KINDS = ("proofs", "tests", "edits")
LOOKS = 0.5  # seconds between two looks
TICKS = os.sysconf("SC_CLK_TCK")


def text_of(path):
    """What a file of /proc tells, or nothing where its process has gone."""
    try:
        return path.read_bytes().decode(errors="replace")
    except OSError:
        return ""


def room_of(pid):
    try:
        return os.readlink(f"/proc/{pid}/cwd")
    except OSError:
        return ""


def purpose(pid):
    """The crate and the kind of a process of rattle, or None of any other."""
    words = text_of(Path(f"/proc/{pid}/cmdline")).split("\0")
    if os.path.basename(words[0]) != "rattle" or "--crate-name" not in words[:-1]:
        return None
    is_edit = re.search(r"/rt-edits?-\w+", f"{room_of(pid)}/ {' '.join(words)}")
    return words[words.index("--crate-name") + 1], "edits" if is_edit else "tests" if "--test" in words else "proofs"


class Notes:
    """What each process below one was seen to have used, and what it is for."""

    def __init__(self, top):
        self.top, self.used, self.purposes = top, {}, {}

    def look(self):
        above, now = {}, {}
        for path in Path("/proc").glob("[0-9]*/stat"):
            fields = text_of(path).rpartition(")")[2].split()
            if fields:
                pid = int(path.parent.name)
                above[pid] = int(fields[1])
                # A number may come to another process: with the time at which it began it is one process's alone.
                now[pid] = (pid, fields[19]), int(fields[11]) + int(fields[12])
        for pid, (name, ticks) in now.items():
            line = [pid]
            while line[-1] in above and line[-1] != self.top:
                line.append(above[line[-1]])
            if line[-1] == self.top and pid != self.top:
                self.used[name] = ticks
                self.purposes[name] = self.found(line, now) or self.purposes.get(name)

    def found(self, line, now):
        """The purpose of the first of a process and those above it that has one."""
        for pid in line[:-1]:
            name = now[pid][0] if pid in now else None
            known = self.purposes.get(name) or purpose(pid)
            if known:
                return known
        return None

    def table(self):
        """Minutes by crate and kind."""
        rows = {}
        for name, ticks in self.used.items():
            if self.purposes[name]:
                crate, kind = self.purposes[name]
                rows.setdefault(crate, dict.fromkeys(KINDS, 0))[kind] += ticks / TICKS / 60
        return rows


def keep_crates(names, folder):
    """Leaves some crates and those below them in a clone, and takes the others away."""
    lines = (folder / "crates.txt").read_text().splitlines(True)
    below = {line.split()[0].rstrip(":"): line.partition(":")[2].split() for line in lines if re.match(r"\w", line)}
    kept = list(names)
    for name in kept:
        kept += [it for it in below[name] if it in below and it not in kept]
    (folder / "crates.txt").write_text("".join(it for it in lines if it.split()[0].rstrip(":") in kept))
    for name in below.keys() - set(kept):
        shutil.rmtree(folder / "crates" / name)


class Run:
    """A run of rt in a folder, watched from its first to its last process."""

    def __init__(self, folder):
        self.last, self.begun = "", time.time()
        told = subprocess.run(["rt", "help"], capture_output=True, text=True, errors="replace", check=False)
        anew = ["--anew"] if "--anew" in told.stdout + told.stderr else []
        self.child = subprocess.Popen(
            ["rt", "ci", *anew], cwd=folder, stdin=subprocess.DEVNULL, stdout=subprocess.PIPE,
            stderr=subprocess.STDOUT, text=True, errors="replace"
        )
        self.reader = threading.Thread(target=self.read, daemon=True)
        self.reader.start()

    def read(self):
        for line in self.child.stdout:
            sys.stderr.write(line)
            self.last = line.rstrip("\n") or self.last

    def watch(self):
        """Looks until rt ends, and gives the notes, its status, and the minutes of it and all that it waited for."""
        notes = Notes(self.child.pid)
        try:
            while True:
                pid, status, usage = os.wait4(self.child.pid, os.WNOHANG)
                if pid:
                    self.child.returncode = os.waitstatus_to_exitcode(status)
                    self.reader.join(timeout=5)
                    return notes, self.child.returncode, (usage.ru_utime + usage.ru_stime) / 60
                notes.look()
                time.sleep(LOOKS)
        finally:
            # rt ends all that it started when it ends.
            if self.child.returncode is None:
                self.child.terminate()
                self.child.wait()


def show(rows, whole):
    line = "%-16s %8s %8s %8s %8s"
    sums = {kind: sum(row[kind] for row in rows.values()) for kind in KINDS}
    print(line % ("crate", *KINDS, "minutes"))
    for crate, row in sorted(rows.items(), key=lambda it: (-sum(it[1].values()), it[0])):
        print(line % (crate, *("%.1f" % row[kind] for kind in KINDS), "%.1f" % sum(row.values())))
    print(line % ("all crates", *("%.1f" % sums[kind] for kind in KINDS), "%.1f" % sum(sums.values())))
    print(line % ("not noted", "", "", "", "%.1f" % max(whole - sum(sums.values()), 0)))
    print(line % ("the whole run", "", "", "", "%.1f" % whole))


def main(words):
    if any(it.startswith("-") for it in words):
        print(__doc__.strip())
        return 0 if words in (["--help"], ["-h"]) else 2
    with tempfile.TemporaryDirectory(prefix="gate-") as room:
        clone = Path(room) / "clone"
        subprocess.run(["git", "clone", "-q", str(HERE), clone], check=True)
        if words:
            keep_crates(words, clone)
        run = Run(clone)
        notes, status, whole = run.watch()
    show(notes.table(), whole)
    print("%.1f minutes by the clock" % ((time.time() - run.begun) / 60))
    print(run.last)
    return status


if __name__ == "__main__":
    sys.exit(main(sys.argv[1:]))
