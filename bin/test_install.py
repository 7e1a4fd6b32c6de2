"""Tests of bin/install."""
import os
import re
import shlex
import shutil

from trying import EXAMPLES, PROGRAM, ROOT, InCopy, files_below, run

# Stands in for the program: it writes what is stored of the inverter, where it is given files that are there.
STANDS_IN = f"""#!/bin/sh
for word in "$2" "$4"; do [ -f "$word" ] || exit 3; done
if [ "$1" = compact ]; then cat {EXAMPLES}/inverter.cif; cat {EXAMPLES}/inverter.report >&2; fi
"""


class Install(InCopy):
    def install(self, *words):
        return run(self.copy / "bin/install", *words)

    def refused(self, status, told, *words):
        self.assertEqual(self.install(*words)[:2], (status, ""))
        self.assertIn(told, self.install(*words)[2])
        self.assertFalse(self.prefix.exists())

    def test_puts_every_file(self):
        self.build()
        status, told, wrong = self.install(self.prefix)
        self.assertEqual((status, wrong), (0, ""))
        put = files_below(self.prefix)
        wanted = {f"share/sticks/examples/{name}": text for name, text in files_below(EXAMPLES).items()}
        wanted["lib/sticks/bin/sticks"] = (self.copy / PROGRAM).read_bytes()
        for name in ("FORMATS", "TUTORIAL", "COOKBOOK"):
            wanted[f"lib/sticks/docs/{name}.md"] = (ROOT / f"docs/{name}.md").read_bytes()
        wanted["share/man/man1/sticks.1"] = (ROOT / "docs/sticks.1").read_bytes()
        companions = [name for name in ("picture", "markers", "passes", "explain") if (ROOT / "bin" / name).exists()]
        for name in [*companions, *(it.name for it in (ROOT / "bin").glob("*.py"))]:
            if not name.startswith("test_") and name != "trying.py":
                wanted[f"lib/sticks/bin/{name}"] = (ROOT / "bin" / name).read_bytes()
        made = ["lib/sticks/help", "lib/sticks/version", "bin/sticks", *(f"bin/sticks-{name}" for name in companions)]
        self.assertEqual({name: text for name, text in put.items() if name not in made}, wanted)
        self.assertEqual(sorted(told.splitlines()), sorted(str(self.prefix / name) for name in [*wanted, *made]))
        self.assertEqual(self.install(self.prefix)[0], 0)  # once more, over what is there

    def test_what_is_put_works_without_the_repository(self):
        self.build()
        version, told = (run(self.copy / "bin/sticks", word)[1] for word in ("--version", "--help"))
        self.install(self.prefix)
        shutil.rmtree(self.copy)
        (self.room / "link").symlink_to(self.prefix / "bin/sticks")
        for sticks in (self.prefix / "bin/sticks", self.room / "link"):
            self.assertEqual(run(sticks, "fmt", "a b", ""), (5, "fmt,a b,,", ""))
            self.assertEqual(run(sticks, "--version"), (0, version, ""))
        status, shown, wrong = run(sticks, "--help")
        self.assertEqual((status, wrong, shown.splitlines()[:3]), (0, "", told.splitlines()[:3]))
        self.assertNotIn("bin/", shown.replace(str(self.prefix), ""))
        self.assertEqual(run(sticks), (2, "", shown))
        for name in ("picture", "markers", "passes"):
            status, shown, wrong = run(self.prefix / f"bin/sticks-{name}", "--help", path=os.environ["PATH"])
            self.assertEqual((status, wrong, shown[: 8 + len(name)]), (0, "", f"usage: {name} "))

    def test_examples_of_the_manual_page_run(self):
        page = (ROOT / "docs/sticks.1").read_text().split("\n.SH EXAMPLES")[1].split("\n.fi")[0]
        page = page.replace("\\-", "-").replace("PREFIX", shlex.quote(str(self.prefix)))
        lines = re.findall(r"^\.B (.*)", page, re.M)
        self.assertEqual(len([it for it in lines if it.startswith("sticks")]), 5)
        self.write(self.copy / PROGRAM, STANDS_IN, 2000)
        self.install(self.prefix)
        ran = run("sh", "-ec", "\n".join(lines), path=f"{self.prefix}/bin:{os.environ['PATH']}", folder=self.room)
        self.assertEqual((ran[0], ran[2]), (0, ""), ran)
        wanted = (EXAMPLES / "inverter.svg").read_text().replace("inverter.cif", "inv.cif")
        self.assertEqual((self.room / "examples/inv.svg").read_text(), wanted)
        for name in re.findall(r"\bnmos\w*\.\w+", (ROOT / "docs/sticks.1").read_text()):
            self.assertTrue((self.prefix / "share/sticks/examples" / name).is_file(), name)

    def test_nothing_is_put_where_the_program_is_not_built(self):
        self.refused(1, "not built yet", self.prefix)
        self.write(self.copy / PROGRAM / "file", "", 2000)
        self.refused(1, "not built yet", self.prefix)

    def test_nothing_is_put_where_the_program_is_older_than_a_source(self):
        self.build(time=900)
        self.refused(1, "older than its sources", self.prefix)
        self.build()
        self.write(self.copy / "crates/other/specs/Names.antt", "", 3000)
        self.refused(1, "older than its sources", self.prefix)

    def test_words(self):
        self.build()
        for words in ([], [""], [self.prefix, "more"], ["--help", "more"]):
            self.refused(2, "usage: bin/install PREFIX", *words)
        self.assertEqual(self.install("--help"), (0, "usage: bin/install PREFIX\n", ""))

    def test_a_place_that_cannot_be_had(self):
        self.build()
        self.prefix.write_text("a file")
        status, told, wrong = self.install(self.prefix)
        wanted = f"install: {self.prefix}/lib/sticks/bin/sticks cannot be put"
        self.assertEqual((status, told, wrong.splitlines()[-1]), (1, "", wanted))
