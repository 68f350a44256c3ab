"""Tests of the example applications: each goes from `make -nB` to the folder that is checked, as it is and with
each of its bugs; the settings lack nothing; and each README speaks of its bugs. What the checker can read today it
is run on, where RTCHECK_PROGRAM names the program."""

import os
import re
import shutil
import subprocess
import sys
import tempfile
import unittest
from pathlib import Path

HERE = Path(__file__).resolve().parent
TOP = HERE.parents[2]
sys.path.insert(0, str(TOP / "tools"))
sys.dont_write_bytecode = True

from plant_bug import NotAnEdit, plant, planted, read_edit
from rtcheck_tools.guesses import outside_classes
from rtcheck_tools.texts import KINDS

COMPILER = os.environ.get("CC", "gcc")
PROGRAM = os.environ.get("RTCHECK_PROGRAM")
ENVIRONMENT = {name: value for name, value in os.environ.items() if not name.startswith("MAKE")}
EXAMPLES = sorted(path.parent for path in (TOP / "examples").glob("*/Makefile"))
READ_TODAY = TOP / "examples/critical-section"


def bugs(example):
    return sorted((example / "bugs").glob("*.edit"))


def build(folder):
    """What the two tools say of a folder, and the folder that is checked."""
    headers = ["--headers", "headers"] if (folder / "headers").is_dir() else []
    lines = subprocess.run(["make", "-nB"], cwd=folder, env=ENVIRONMENT, capture_output=True, check=True).stdout
    command = [sys.executable, str(TOP / "tools/rtcheck-build"), "--out", "check", *headers]
    done = subprocess.run(command, cwd=folder, env=ENVIRONMENT, input=lines, capture_output=True)
    return done.returncode, done.stderr.decode()


@unittest.skipUnless(shutil.which(COMPILER) and shutil.which("make"), f"there is no {COMPILER} or no make")
class Applications(unittest.TestCase):
    def built(self, root, edit_or_example):
        """The folder of an example or of one with a bug, whose check is built with no word but the summary: so the
        settings lack nothing."""
        folder = Path(root) / edit_or_example.stem
        if edit_or_example.suffix == ".edit":
            plant(edit_or_example, folder)
        else:
            shutil.copytree(edit_or_example, folder)
        settings = (folder / "rtcheck.toml").read_bytes()
        status, said = build(folder)
        self.assertEqual((status, said.count("\n")), (0, 1), said)
        sources = sorted(path.stem + ".i" for path in folder.glob("*.c"))
        self.assertEqual(sorted(path.name for path in (folder / "check").glob("*.i")), sources)
        self.assertEqual((folder / "check/rtcheck.toml").read_bytes(), settings)
        return folder

    def test_each_example_is_built(self):
        self.assertGreaterEqual(len(EXAMPLES), 4)
        for example in EXAMPLES:
            with self.subTest(example.name), tempfile.TemporaryDirectory() as root:
                self.built(root, example)

    def test_each_bug_is_c(self):
        for example in EXAMPLES:
            headers = ["--headers", "headers"] if (example / "headers").is_dir() else []
            for edit in bugs(example):
                with self.subTest(str(edit.relative_to(TOP))), tempfile.TemporaryDirectory() as root:
                    folder = Path(root) / edit.stem
                    plant(edit, folder)
                    command = [str(TOP / "tools/preprocess.sh"), read_edit(edit)[1], "--out", "check", "-I.", *headers]
                    done = subprocess.run(command, cwd=folder, capture_output=True)
                    self.assertEqual((done.returncode, done.stderr), (0, b""))

    @unittest.skipUnless(PROGRAM, "RTCHECK_PROGRAM names no program")
    def test_what_is_read_today_has_its_reports(self):
        cases = [(READ_TODAY, READ_TODAY / "report")] + [(e, e.with_suffix(".report")) for e in bugs(READ_TODAY)]
        for case, report in cases:
            with self.subTest(case.stem), tempfile.TemporaryDirectory() as root:
                folder = self.built(root, case)
                done = subprocess.run([PROGRAM, "check"], cwd=folder / "check", capture_output=True)
                self.assertEqual(done.stdout, report.read_bytes())
                self.assertEqual(done.returncode, 1 if case.suffix == ".edit" else 0)


class Bugs(unittest.TestCase):
    def test_each_bug_has_its_row(self):
        for example in EXAMPLES:
            readme = (example / "README.md").read_text()
            rows = dict(re.findall(r"^\| `bugs/([\w-]+)` \| (\S+) \|", readme, re.M))
            kinds = {edit.stem: read_edit(edit)[0] for edit in bugs(example)}
            self.assertEqual(rows, kinds, example.name)
            self.assertTrue(kinds and set(kinds.values()) <= set(KINDS), example.name)

    def test_settings_have_the_classes_of_the_headers(self):
        known = outside_classes()
        for example in EXAMPLES:
            entries = (example / "rtcheck.toml").read_text().split("[[function]]\n")[1:]
            for name, lines in (entry.rstrip().split("\n", 1) for entry in entries):
                self.assertEqual(lines, known[name.split('"')[1]], f"{example.name}: {name}")

    def test_reports_are_of_their_kinds(self):
        for edit in bugs(READ_TODAY):
            line = edit.with_suffix(".report").read_text().split("\n")[2]
            self.assertEqual(line.split(" ")[2], read_edit(edit)[0])

    def test_an_edit_fits_once_or_not(self):
        self.assertEqual(planted("a\nb\nc", [("b", "x y")]), "a\nx y\nc")
        for source in ("a\nc", "b\nb"):
            with self.assertRaises(NotAnEdit):
                planted(source, [("b", "x")])


if __name__ == "__main__":
    unittest.main()
