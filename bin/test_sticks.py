"""Tests of bin/sticks."""
import re

from trying import PROGRAM, ROOT, InCopy, run


class Sticks(InCopy):
    def sticks(self, *words, **where):
        return run(self.copy / "bin/sticks", *words, **where)

    def test_help_and_version_build_nothing(self):
        status, told, wrong = self.sticks("--help")
        self.assertEqual((status, wrong), (0, ""))
        self.assertTrue(told.startswith("sticks: a verified symbolic layout compactor for nMOS\n"))
        self.assertEqual(self.sticks("-h"), (0, told, ""))
        self.assertEqual(self.sticks("help"), (0, told, ""))
        self.assertEqual(self.sticks(), (2, "", told))
        kit = re.search(r"the kit `(\S+)`", (ROOT / "README.md").read_text())[1]
        self.assertEqual(self.sticks("--version"), (0, f"sticks 1, {kit}\n", ""))
        self.assertFalse((self.copy / "crates/sticks/build.log").exists())

    def test_help_names_every_command_and_status_of_the_manual_page(self):
        told = self.sticks("--help")[1]
        page = (ROOT / "docs/sticks.1").read_text()
        for command in re.findall(r"^\.B sticks (\w+)$", page, re.M):
            self.assertRegex(told, rf"(?m)^  sticks {command} ")
        codes = re.findall(r"^\.B (\d+)$", page, re.M)
        shown = set(re.findall(r"(?:^ |  ) ?(\d+)  \w", told, re.M)) - {"70"}
        self.assertEqual(sorted(codes, key=int), sorted(shown, key=int))

    def test_a_built_program_gets_the_words(self):
        self.build()
        words = ("compact", "a b", "", "--tech=x")
        self.assertEqual(self.sticks(*words), (5, "compact,a b,,--tech=x,", ""))
        self.assertEqual(self.sticks("--build"), (0, f"{self.copy / PROGRAM}\n", ""))
        (self.room / "one").symlink_to(self.copy / "bin/sticks")
        (self.room / "far").mkdir()
        (self.room / "far/two").symlink_to("../one")
        self.assertEqual(run(self.room / "far/two", *words), (5, "compact,a b,,--tech=x,", ""))
        self.assertEqual(run("far/two", "bench", folder=self.room), (5, "bench,", ""))

    def test_without_the_kit(self):
        status, told, wrong = self.sticks("bench", "1")
        self.assertEqual((status, told), (70, ""))
        kit = re.search(r"^kit=(\S+)$", (ROOT / "bin/sticks").read_text(), re.M)[1]
        self.assertRegex(wrong, rf"^sticks: the build failed: no command rt .* {kit} .*README.md")
