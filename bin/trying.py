"""What the tests of the scripts share: a copy of what the scripts read, and running a command in it."""
import io
import os
import shutil
import subprocess
import sys
import tempfile
import unittest
from contextlib import redirect_stderr, redirect_stdout
from importlib.machinery import SourceFileLoader
from importlib.util import module_from_spec, spec_from_loader
from pathlib import Path

from program import status_of

ROOT = Path(__file__).resolve().parent.parent
EXAMPLES = ROOT / "examples"
SOURCE = "crates/sticks/src/main.rt"
PROGRAM = "crates/sticks/out/sticks"
SYSTEM = "/usr/bin:/bin"  # where no kit is


def run(*words, path=SYSTEM, folder=None):
    """The status of a command, what it writes, and what it says."""
    ran = subprocess.run(
        [str(it) for it in words],
        cwd=folder,
        env={"PATH": path, "LC_ALL": "C"},
        stdin=subprocess.DEVNULL,
        capture_output=True,
        timeout=300,
    )
    return ran.returncode, ran.stdout.decode(), ran.stderr.decode()


def call(name, *words):
    """The same of a script of bin/ that is written in Python, called in this process, which is quicker."""
    loader = SourceFileLoader(f"script_{name}", str(ROOT / "bin" / name))
    script = module_from_spec(spec_from_loader(loader.name, loader))
    loader.exec_module(script)
    output, told = io.TextIOWrapper(io.BytesIO(), encoding="utf-8", newline="\n"), io.StringIO()
    with redirect_stdout(output), redirect_stderr(told):
        try:
            status = status_of(name, script.main, [str(it) for it in words])
        except SystemExit as it:  # of argparse
            status = it.code
    output.flush()
    return status, output.buffer.getvalue().decode(), told.getvalue()


def files_below(folder):
    """The bytes of each file, by its path below the folder."""
    return {str(it.relative_to(folder)): it.read_bytes() for it in sorted(folder.rglob("*")) if it.is_file()}


class InCopy(unittest.TestCase):
    """A copy of what the scripts read, whose one crate has one source, in an empty folder."""

    def setUp(self):
        room = tempfile.TemporaryDirectory()
        self.addCleanup(room.cleanup)
        self.room = Path(room.name).resolve()
        self.copy, self.prefix = self.room / "copy", self.room / "a prefix"
        for name in ("bin", "docs", "examples"):
            shutil.copytree(ROOT / name, self.copy / name)
        shutil.copy(ROOT / "crates.txt", self.copy)
        self.write(self.copy / SOURCE, "fn main() {}\n", 1000)

    def write(self, path, text, time):
        path.parent.mkdir(parents=True, exist_ok=True)
        path.write_text(text)
        path.chmod(0o755)
        os.utime(path, (time, time))

    def build(self, time=2000):
        """Puts a program there that tells its words, and ends with status 5."""
        self.write(self.copy / PROGRAM, '#!/bin/sh\nprintf "%s," "$@"; exit 5\n', time)

    def kit(self, text):
        """Puts an rt of this text into a folder, and gives a path with it."""
        self.write(self.room / "kit/rt", text, 1000)
        return f"{self.room / 'kit'}:{SYSTEM}"
