#!/usr/bin/env python3
"""Runs every command of a walk in docs/ and compares what it writes: tutorial.py [--write] [PROGRAM [FILE..]]

PROGRAM is the built program, bin/sticks of this checkout if none is given; FILE is docs/TUTORIAL.md and then
docs/COOKBOOK.md if none is given. Each walk runs in a folder of its own, with this checkout's examples/ and with
bin/sticks, bin/picture and bin/explain. In the text

- a block ``` KIND NAME, as ``` sticks inv.sticks, is written to the file NAME; where NAME begins with examples/, the
  block has to be the text of that file;
- in a block ``` console each line that begins with `$ ` is a command, which goes on in the next line where it ends in a
  backslash, and the lines below it are what it has to write, standard output and standard error together. A line `...`
  stands for any number of lines, none included. `$?` is the status of the command before. A command that writes both
  gives the report or the refusal after the masks, as the program writes them;
- a block ``` text is neither run nor looked at;
- a picture from a folder of examples/ has to be what a command of the walk has put into the file of its name, and each
  picture of that folder has to be shown. With --write the pictures of the walk are put there first.

It also makes the pictures beside the masks in examples/ anew and compares them. The first command of a walk that
writes something else is told, and each picture that is out of date; then the status is 1.
"""
import os
import re
import subprocess
import sys
import tempfile
from pathlib import Path

HERE = Path(__file__).resolve().parent.parent
BLOCK = re.compile(r"^```(\S+)(?: (\S+))?\n(.*?)^```$", re.M | re.S)
PICTURE = re.compile(r"\]\(\.\./(examples/\w+)/([\w.-]+\.svg)\)")


class Wrong(Exception):
    """What is not as the document says."""


def steps(text):
    """Gives the line of each block, and ("file", name, text) or ("run", command, lines)."""
    for found in BLOCK.finditer(text):
        kind, name, body = found.groups()
        line = text[: found.start()].count("\n") + 1
        if name and kind != "console":
            yield line, "file", name, body
        elif kind == "console":
            for at, part in enumerate(re.split(r"^\$ ", body, flags=re.M)):
                if at == 0 and part:
                    raise Wrong(f"line {line}: a block of commands begins with something else")
                if at:
                    command = re.match(r"(?:.*\\\n)*.*", part)[0]
                    yield line, "run", command, part[len(command) + 1 :].splitlines()
        elif kind != "text":
            raise Wrong(f"line {line}: a block that this script does not know: {kind}")


def fits(wanted, given):
    """Whether the lines are those that are wanted, where `...` stands for any number of lines."""
    form = "".join("(?:[^\n]*\n)*?" if it == "..." else re.escape(it) + "\n" for it in wanted)
    return re.fullmatch(form, "".join(it + "\n" for it in given)) is not None


def set_up(program, folder):
    """Puts the examples and the programs of bin/ into the folder of a walk."""
    (folder / "bin").mkdir()
    targets = {"bin/sticks": program, "bin/picture": HERE / "bin/picture", "examples": HERE / "examples"}
    for name, target in targets.items():
        (folder / name).symlink_to(target)
    explain = folder / "bin/explain"
    words = f"#!/bin/sh\nexec '{HERE}/bin/explain' --program '{program}' \"$@\"\n"
    explain.write_text(words, encoding="utf-8")
    explain.chmod(0o755)


def walk(text, folder):
    """Runs the commands of a text in a folder, and gives how many there are."""
    status = runs = 0
    how = {"stdin": subprocess.DEVNULL, "stdout": subprocess.PIPE, "stderr": subprocess.STDOUT, "text": True}
    for line, kind, what, body in steps(text):
        if kind == "run":
            ran = subprocess.run(["sh", "-c", f"(exit {status}); {what}"], cwd=folder, timeout=60, **how)
            status, runs = ran.returncode, runs + 1
            if not fits(body, ran.stdout.splitlines()):
                given = ran.stdout.rstrip("\n")
                raise Wrong("\n".join([f"the block at line {line}: {what}", "wanted", *body, "given", given]))
        elif not what.startswith("examples/"):
            (folder / what).write_text(body, encoding="utf-8")
        elif not (HERE / what).is_file() or (HERE / what).read_text(encoding="utf-8") != body:
            raise Wrong(f"the block at line {line} is not the text of {what}")
    return runs


def pictures(text, folder, write):
    """Compares the pictures of a text with those that its walk has left; gives how many there are."""
    shown = dict.fromkeys(PICTURE.findall(text))
    for room, name in shown:
        made, stored = folder / name, HERE / room / name
        if not made.is_file():
            raise Wrong(f"no command makes the picture {name}")
        if write:
            stored.write_bytes(made.read_bytes())
        if not stored.is_file() or stored.read_bytes() != made.read_bytes():
            raise Wrong(f"{room}/{name} is out of date: --write puts that of the walk there")
    for room in {room for room, _ in shown}:
        for path in sorted((HERE / room).glob("*.svg")):
            if (room, path.name) not in shown:
                raise Wrong(f"{room}/{path.name} is not shown")
    return len(shown)


def stale_pictures():
    """The pictures beside the masks in examples/ that are not what bin/picture makes of these."""
    for cif in sorted((HERE / "examples").glob("*.cif")):
        words = [HERE / "bin/picture", cif, "--design", cif.with_suffix(".sticks")]
        words += ["--report", cif.with_suffix(".report")]
        ran = subprocess.run([str(it) for it in words], stdout=subprocess.PIPE)
        if ran.returncode or ran.stdout != cif.with_suffix(".svg").read_bytes():
            yield cif.with_suffix(".svg").name


def main(words):
    if words[:1] in (["--help"], ["-h"]):
        print(__doc__.strip())
        return 0
    write = "--write" in words
    words = [it for it in words if it != "--write"]
    program = Path(words[0] if words else HERE / "bin/sticks").resolve()
    if not os.access(program, os.X_OK):
        raise SystemExit(f"{program} is no program")
    paths = [Path(it) for it in words[1:]] or [HERE / "docs/TUTORIAL.md", HERE / "docs/COOKBOOK.md"]
    wrong = 0
    for path in paths:
        text = path.read_text(encoding="utf-8")
        with tempfile.TemporaryDirectory() as room:
            folder = Path(room)
            set_up(program, folder)
            try:
                runs = walk(text, folder)
                shown = pictures(text, folder, write)
                told = f", and the {shown} pictures are those of its designs" if shown else ""
                print(f"{path.name}: the {runs} commands write what it says{told}")
            except Wrong as it:
                wrong += 1
                print(f"{path.name}: {it}")
    for name in stale_pictures():
        wrong += 1
        print(f"examples/{name} is out of date: bin/picture makes it")
    return 1 if wrong else 0


if __name__ == "__main__":
    sys.exit(main(sys.argv[1:]))
