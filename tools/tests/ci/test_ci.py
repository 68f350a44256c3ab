"""The recipes of docs/CI.md: their lines are run up to the upload, in a copy of an example, as a runner runs them.
The program is a stand-in here that writes a report and ends with a status: what the lines make of these is tested."""

import json
import os
import re
import shutil
import subprocess
import sys
import tempfile
import unittest
from pathlib import Path

HERE = Path(__file__).resolve().parent
TOP = HERE.parents[2]
EXAMPLE = TOP / "examples/blinker"
sys.path[:0] = [str(TOP / "tools"), str(TOP / "tools/tests/report")]
sys.dont_write_bytecode = True

from sarif_rules import faults

COMPILER = os.environ.get("CC", "gcc")
REPORTS = {
    0: "rtcheck 1\naccepted\nfiles 1 functions 1 entries 1\n",
    1: (TOP / "examples/double-lock/report").read_text(),
    2: "rtcheck 1\nunsupported U23 - main absent or of another type\n",
    4: "rtcheck 1\nsettings rtcheck.toml absent\n",
    5: "",
    6: "rtcheck 1\nrejected 1\nalarm 1 SV#4 main.i:6:3 chSysLock\n",
}


def recipes():
    """The two recipes: the steps of GitHub's, and the lines of GitLab's."""
    github, gitlab = re.findall(r"```yaml\n(.*?)```", (TOP / "docs/CI.md").read_text(), re.S)
    steps = [re.sub(r"(?m)^ {10}", "", block) for block in re.findall(r"run: \|\n((?: {10}.*\n)+)", github)]
    lines = re.findall(r"^    - (.*)$", re.search(r"script:\n(.*?)\n  artifacts:", gitlab, re.S)[1], re.M)
    return steps, lines


@unittest.skipUnless(shutil.which(COMPILER) and shutil.which("make"), f"there is no {COMPILER} or no make")
class Recipes(unittest.TestCase):
    def setUp(self):
        self.kept = tempfile.TemporaryDirectory()
        self.root = Path(self.kept.name)
        shutil.copytree(EXAMPLE, self.root / "app")
        (self.root / "bin").mkdir()
        (self.root / "bin/rtcheck").write_text('#!/bin/sh\ncat "$ANSWER/report"\nexit "$(cat "$ANSWER/status")"\n')
        (self.root / "bin/rtcheck").chmod(0o755)

    def tearDown(self):
        self.kept.cleanup()

    def run_step(self, step, status):
        """A step of a recipe, where the program answers so: its status, and what it prints."""
        (self.root / "report").write_text(REPORTS[status])
        (self.root / "status").write_text(str(status))
        environment = {k: v for k, v in os.environ.items() if not k.startswith("MAKE")}
        environment.update(RTCHECK=str(TOP), ANSWER=str(self.root), GITHUB_OUTPUT=str(self.root / "output"))
        environment["PATH"] = f"{self.root / 'bin'}:{environment['PATH']}"
        command = ["bash", "-e", "-c", step]
        done = subprocess.run(command, cwd=self.root / "app", env=environment, capture_output=True)
        return done.returncode, done.stdout.decode()

    def test_github(self):
        (check, verdict), _ = recipes()
        for status in REPORTS:
            with self.subTest(status=status):
                self.assertEqual(self.run_step(check, status)[0], 0)
                told = (self.root / "output").read_text().split("\n")[-2]
                self.assertEqual(told, f"status={status}")
                text = (self.root / "app/rtcheck.sarif").read_text()
                if status < 5:
                    self.assertEqual(list(faults(json.loads(text))), [])
                else:
                    self.assertEqual(text, "")
                self.assertEqual(self.run_step(verdict, status)[0], status if status < 5 else 6)

    def test_only_verdicts_are_uploaded(self):
        github = (TOP / "docs/CI.md").read_text()
        condition = re.search(r"- if: (.*)\n +uses: github/codeql-action/upload-sarif", github)[1]
        self.assertEqual(re.findall(r"status == '(\d)'", condition), ["0", "1"])

    def test_gitlab(self):
        _, lines = recipes()
        for status in (1, 2, 5):
            with self.subTest(status=status):
                done, said = self.run_step("\n".join(lines), status)
                self.assertEqual(done, status if status < 5 else 6)
                self.assertEqual("SV#4 at chSysLock" in said, status == 1)
                page = (self.root / "app/rtcheck.html").read_text()
                self.assertEqual(page.startswith("<!doctype html>"), status < 5)


if __name__ == "__main__":
    unittest.main()
