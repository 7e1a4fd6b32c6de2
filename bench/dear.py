#!/usr/bin/env python3
"""Tells what is the dearest to prove: dear.py NAME [MOST], or dear.py --kept [NAME..] [MOST]

rattle leaves a file for each module that it has checked. The seconds by the clock since the file before are the
module's own, so look where nothing else runs. The MOST dearest are printed, 10 if no number is given.

dear.py NAME proves the crate from nothing with one job, `rt check --jobs 1`, in a fresh clone of what is committed here
(TMPDIR says where). The crates below it take what checks on this machine have kept. The status is that of rt.
dear.py --kept proves nothing. It reads what the last `rt check` or `rt lib` left in crates/*/out here, of all crates or
of those named, and prints the sum of each crate too. After `rt lib` in crates/sticks, from nothing, this shows where
all of a first build goes. The numbers of a crate are wrong where it was checked again since then.

What stands after a function's name says what is checked: `Lts` the ways out of it, with all that is dropped on each,
`Tie` and `Proof` its goals, `Answers` what its file of proofs/ answers. The facade of a crate, a module with its name
alone, has the time in which libraries are read.
"""
import subprocess
import sys
import tempfile
from pathlib import Path

HERE = Path(__file__).resolve().parent.parent


def modules(kept):
    """What a check left in a folder: the seconds and the name of each module."""
    files = [it for it in kept.rglob("*.oantt") if "records" not in it.parts]
    times = sorted((it.stat().st_mtime, it.stem.replace("Rattle-", "")) for it in files)
    return [(now - last, name) for (last, _), (now, name) in zip(times, times[1:])]


def show(found, most):
    for seconds, name in sorted(found, reverse=True)[:most]:
        print("%7.1f %s" % (seconds, name))
    print("%7.1f %d modules" % (sum(it for it, _ in found), len(found)))


def proved(name, most):
    with tempfile.TemporaryDirectory(prefix="dear-") as room:
        subprocess.run(["git", "clone", "-q", str(HERE), f"{room}/clone"], check=True)
        crate = Path(room) / "clone/crates" / name
        root = next(it for it in (crate / "src/lib.rt", crate / "src/main.rt") if it.exists())
        # A text that no check has kept, and a folder of its own to keep it: so nothing is taken.
        root.write_text(root.read_text() + "// from nothing\n")
        kept = crate / "out/incremental"
        kept.mkdir(parents=True)
        status = subprocess.run(["rt", "check", "--jobs", "1"], cwd=crate, stdout=sys.stderr, check=False).returncode
        show(modules(kept), most)
    return status


def read(names, most):
    crates = [HERE / "crates" / name for name in names] or sorted((HERE / "crates").iterdir())
    found = {crate.name: modules(crate / "out/incremental") for crate in crates}
    sums = {name: sum(it for it, _ in its) for name, its in found.items() if its}
    for name in sorted(sums, key=sums.get, reverse=True):
        print("%7.1f %s" % (sums[name], name))
    show([it for its in found.values() for it in its], most)
    return 0 if sums else 1


def main(words):
    numbers = [int(it) for it in words if it.isdigit()]
    names = [it for it in words if not it.startswith("-") and not it.isdigit()]
    flags = [it for it in words if it.startswith("-")]
    most = numbers[0] if numbers else 10
    if flags == ["--kept"]:
        return read(names, most)
    if flags or len(names) != 1:
        print(__doc__.strip())
        return 0 if flags in (["--help"], ["-h"]) else 2
    return proved(names[0], most)


if __name__ == "__main__":
    sys.exit(main(sys.argv[1:]))
