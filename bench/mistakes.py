#!/usr/bin/env python3
"""Runs typical mistakes through bin/explain, and holds what it says: mistakes.py [-v] [--keep] [PROGRAM [NAME..]]

PROGRAM is the built program, bin/sticks of this checkout if none is given. The mistakes stand in mistake_texts.py: each
is the words of a command, the texts that it reads, and what has to stand in the explanation, in this order: the line,
the word, the rule and the distance to change. NAME is a part of titles; without one all are run. Held besides: the
status, the output and what the program tells come through as they are, and what it answers is what stands in
mistakes.json, with which bin/test tries bin/explain without the program.

  -v      prints each explanation
  --keep  writes the answers of the program to mistakes.json

What is not held is told, and the status is 1.
"""
import json
import os
import shutil
import subprocess
import sys
import tempfile
from concurrent.futures import ThreadPoolExecutor
from pathlib import Path

from mistake_texts import EXAMPLES, MISTAKES

HERE = Path(__file__).resolve().parent.parent
EXPLAIN = HERE / "bin/explain"
ANSWERS = HERE / "bench/mistakes.json"
FROM_EXAMPLES = ["nmos.toml", "nmos2.toml", "inverter.sticks", "row.sticks", "inverter.cif"]


def run(words, folder):
    ran = subprocess.run([str(it) for it in words], cwd=folder, stdin=subprocess.DEVNULL, capture_output=True,
                         timeout=300)
    return ran.returncode, ran.stdout.decode(), ran.stderr.decode()


def put(folder, files):
    """Writes the files that a mistake reads, and those of examples/."""
    for name in FROM_EXAMPLES:
        shutil.copy(EXAMPLES / name, folder)
    for name, text in files.items():
        (Path(folder) / name).write_text(text, encoding="utf-8", newline="")


def missing(wanted, text):
    """The first of the texts that does not stand behind the ones before it, or nothing."""
    at = 0
    for it in wanted:
        found = text.find(it, at)
        if found < 0:
            return it
        at = found + len(it)
    return ""


def judged(wanted, explanation):
    """What is wrong with an explanation, or nothing."""
    if any(not it.startswith("explain: ") for it in explanation.splitlines()):
        return "a line of the explanation is without 'explain: '"
    if "no more can be told" in explanation:
        return "the explanation fails"
    gone = missing(wanted, explanation)
    return gone and f"it does not say '{gone}'"


def one(program, mistake):
    """The program's answer, what is wrong with the explanation of a mistake, and the explanation."""
    _, words, files, wanted = mistake
    with tempfile.TemporaryDirectory() as folder:
        put(folder, files)
        answer = run([program, *words.split()], folder)
        status, output, both = run([EXPLAIN, "--program", program, *words.split()], folder)
    own, explanation = both[: len(answer[2])], both[len(answer[2]) :]
    if (status, output, own) != answer:
        return answer, f"the program's own status, output and lines are not kept: {status} for {answer[0]}", explanation
    return answer, judged(wanted, explanation), explanation


def main(words):
    if words[:1] in (["--help"], ["-h"]):
        print(__doc__.strip())
        return 0
    is_loud, is_kept = "-v" in words[:2], "--keep" in words[:2]
    words = words[is_loud + is_kept :]
    program = Path(words[0] if words else HERE / "bin/sticks").resolve()
    if not os.access(program, os.X_OK):
        raise SystemExit(f"{program} is no program")
    answers = json.loads(ANSWERS.read_text(encoding="utf-8")) if ANSWERS.exists() else {}
    asked = [it for it in MISTAKES if not words[1:] or any(name in it[0] for name in words[1:])]
    wrong = 0
    with ThreadPoolExecutor(os.cpu_count()) as pool:
        for mistake, (answer, why, explanation) in zip(asked, pool.map(lambda it: one(program, it), asked)):
            if is_kept:
                answers[mistake[0]] = answer
            elif not why and answers.get(mistake[0]) != list(answer):
                why = f"mistakes.json has another answer of the program than {answer}"
            wrong += bool(why)
            if why or is_loud:
                print(f"{mistake[0]}: {why or 'held'}\n$ {mistake[1]}\n{explanation}", flush=True)
    if is_kept:
        kept = {it[0]: answers[it[0]] for it in MISTAKES if it[0] in answers}
        ANSWERS.write_text(json.dumps(kept, indent=1) + "\n", encoding="utf-8")
    print(f"{len(asked)} mistakes, {wrong} not explained as they should be")
    return 1 if wrong else 0


if __name__ == "__main__":
    sys.exit(main(sys.argv[1:]))
