"""Tests of tools/rtcheck-build on a small application of two folders beside a kernel's tree (app, chibios), of
which it copies both. The sources' facts, as what is a vector, are read off them by hand."""

import os
import re
import shutil
import subprocess
import sys
import tempfile
import unittest
from pathlib import Path

HERE = Path(__file__).resolve().parent
TOP = HERE.parents[2]
sys.path.insert(0, str(TOP / "tools"))

from rtcheck_tools.commands import Unreadable, of_database, of_make, sources_of
from rtcheck_tools.guesses import guess, outside_classes

TOOL = TOP / "tools/rtcheck-build"
COMPILER = os.environ.get("CC", "gcc")
ENVIRONMENT = {name: value for name, value in os.environ.items() if not name.startswith("MAKE")}


def sections(settings, head):
    """The entries of a list of settings, each as key -> value, comments and marked guesses taken out."""
    found = []
    for block in re.split(r"\n(?=\[\[)", re.sub(r"^#.*\n", "", settings, flags=re.M)):
        if block.startswith(f"[[{head}]]"):
            found.append(dict(re.findall(r'^(\w+) = "?([^"\n#]*?)"?(?: #.*)?$', block, re.M)))
    return found


@unittest.skipUnless(shutil.which(COMPILER) and shutil.which("make"), f"there is no {COMPILER} or no make")
class Application(unittest.TestCase):
    """A copy of the application, in which the tool is run."""

    def setUp(self):
        self.kept = tempfile.TemporaryDirectory()
        self.root = Path(self.kept.name).resolve()
        for name in ("app", "chibios"):
            shutil.copytree(HERE / name, self.root / name)
        self.app = self.root / "app"
        self.out = self.app / "check"

    def tearDown(self):
        self.kept.cleanup()

    def make(self):
        done = subprocess.run(["make", "-nB"], cwd=self.app, env=ENVIRONMENT, capture_output=True, check=True)
        return done.stdout

    def run_tool(self, *words, lines=None):
        """The status, and what is said, of a run on `make -nB` or on these lines."""
        given = self.make() if lines is None else lines
        command = [sys.executable, str(TOOL), "--out", "check", *words]
        done = subprocess.run(command, cwd=self.app, input=given, env=ENVIRONMENT, capture_output=True)
        return done.returncode, done.stdout.decode() + done.stderr.decode()

    def texts(self):
        return {path.name: path.read_bytes() for path in self.out.glob("*.i")}

    def test_make_and_a_database_give_the_same_texts(self):
        status, said = self.run_tool()
        self.assertEqual(status, 0, said)
        self.assertIn("check has led.i main.i; other sources that are left out: 1\n", said)
        texts = self.texts()
        self.assertEqual(sorted(texts), ["led.i", "main.i"])
        self.assertIn(b'# 1 "drivers/led.c"', texts["led.i"])
        self.assertIn(b'name = "an application"', texts["main.i"])
        self.assertIn(b"void Vector108(void)", texts["main.i"])
        self.assertIn(b'# 1 "../chibios/os/hal/boards/BOARD/board.h"', texts["main.i"])
        self.assertFalse(str(self.root).encode() in b"".join(texts.values()), "a text has a path of the machine")
        shutil.rmtree(self.out)
        database = (self.app / "compile_commands.json").read_text().replace("FOLDER", str(self.app))
        (self.app / "compile_commands.json").write_text(database)
        status, said = self.run_tool("--database", "compile_commands.json")
        self.assertEqual(status, 0, said)
        self.assertEqual(self.texts(), texts)

    def test_the_first_settings(self):
        _, said = self.run_tool()
        settings = (self.app / "rtcheck.toml").read_text()
        self.assertEqual((self.out / "rtcheck.toml").read_text(), settings)
        self.assertRegex(settings, r"(?m)^version = 1$")
        self.assertRegex(settings, r"(?m)^kernel_priority = 2 # guessed")
        vectors = [(v["function"], int(v["priority"]) < 2) for v in sections(settings, "vector")]
        self.assertEqual(vectors, [("Vector108", False), ("VectorA0", True), ("TIM3_IRQHandler", False)])
        callbacks = [(c["struct"], c["member"]) for c in sections(settings, "callback")]
        self.assertEqual(callbacks, [("palevent_t", "cb"), ("GPTConfig", "callback")])
        classes = {f["name"]: f["class"] for f in sections(settings, "function")}
        self.assertEqual(
            classes,
            {
                "gptStart": "normal",
                "halInit": "neutral",
                "own_acknowledge": "?",
                "own_send": "?",
                "palSetLineMode": "neutral",
                "palToggleLine": "neutral",
                "rtcheck_chDbgCheckClassI": "I",
            },
        )
        self.assertIn('# struct = "job_t"\n# member = "on_done"', settings)
        self.assertNotIn('"step"', settings)
        self.assertIn("wrote a first rtcheck.toml", said)
        self.assertIn("fill in the class of own_acknowledge own_send", said)
        self.assertIn("does a handler call job_t.on_done?", said)

    def test_settings_are_never_overwritten(self):
        own = 'version = 1\nkernel_priority = 3\n[[vector]]\nfunction = "Vector108"\npriority = 4\n'
        (self.app / "rtcheck.toml").write_text(own)
        status, said = self.run_tool()
        self.assertEqual(status, 0, said)
        self.assertEqual((self.app / "rtcheck.toml").read_text(), own)
        self.assertEqual((self.out / "rtcheck.toml").read_text(), own)
        for lack in ("no vector VectorA0 ", "no callback GPTConfig.callback", "no function own_send (main.c:50)"):
            self.assertIn(f"rtcheck.toml: {lack}", said)
        self.assertNotIn("no vector Vector108", said)
        (self.out / "rtcheck.toml").write_text("version = 2\n")
        status, said = self.run_tool()
        self.assertEqual(status, 0, said)
        self.assertEqual((self.out / "rtcheck.toml").read_text(), "version = 2\n")
        self.assertIn("rtcheck.toml isn't what was put there", said)

    def test_texts_of_sources_that_are_gone_are_removed(self):
        self.run_tool()
        (self.out / "own.i").write_text("int x;\n")
        lines = b"\n".join(line for line in self.make().split(b"\n") if b"led.c" not in line)
        status, said = self.run_tool(lines=lines)
        self.assertEqual(status, 0, said)
        self.assertEqual(sorted(self.texts()), ["main.i", "own.i"])
        self.assertIn("own.i is of no source", said)

    def test_preprocess_sh_knows_what_was_made(self):
        self.run_tool()
        (self.app / "one.c").write_text("int one;\n")
        command = [str(TOP / "tools/preprocess.sh"), "one.c", "--out", "check"]
        done = subprocess.run(command, cwd=self.app, capture_output=True)
        self.assertEqual((done.returncode, done.stderr), (0, b""))
        self.assertEqual(sorted(self.texts()), ["one.i"])

    def test_sources_of_one_name_have_their_folders(self):
        (self.app / "main.c").rename(self.app / "drivers/main.c")
        (self.app / "main.c").write_text("int x;\n")
        status, said = self.run_tool(lines=b"gcc -c main.c\ngcc -DSTM32F407xx -DNAME=0 -Icfg -I. -c drivers/main.c\n")
        self.assertEqual(status, 0, said)
        self.assertEqual(sorted(self.texts()), ["drivers_main.i", "main.i"])

    def test_a_source_that_is_refused_leaves_the_folder_as_it_was(self):
        self.run_tool()
        texts = self.texts()
        (self.app / "drivers/led.c").write_text("int main(void) { return 0 }\n")
        status, said = self.run_tool()
        self.assertEqual(status, 1)
        self.assertIn("drivers/led.c:1", said)
        self.assertEqual(self.texts(), texts)

    def test_skipped_and_own_headers(self):
        (self.app / "mine").mkdir()
        (self.app / "mine/hal.h").write_text('#include "osal.h"\n#define HAL "mine"\nconst char *hal = HAL;\n')
        (self.app / "uses.c").write_text('#include "hal.h"\n')
        lines = b"gcc -c uses.c\ngcc -c drivers/led.c\n"
        status, said = self.run_tool("--skip", "drivers", "--headers", "mine", "--", "-DX=1", lines=lines)
        self.assertEqual(status, 0, said)
        self.assertEqual(list(self.texts()), ["uses.i"])
        self.assertIn(b'hal = "mine"', self.texts()["uses.i"])

    def test_nothing_to_check(self):
        status, said = self.run_tool(lines=b"make: Nothing to be done for 'all'.\n")
        self.assertEqual(status, 1)
        self.assertIn("make -nB", said)
        self.assertFalse(self.out.exists())

    def test_wrong_words(self):
        self.assertEqual(self.run_tool("--no-such-word", lines=b"")[0], 3)


class Commands(unittest.TestCase):
    def sources(self, text, here="/app"):
        found, again = sources_of(of_make(text, here))
        return {path: source.words for path, source in found.items()}, again

    def test_words_of_the_preprocessor(self):
        text = "cc -O2 -I inc -Isub -isystem /sys -DA -D B=1 -UC -include conf.h -MF x.c -o y.c -c 'a b.c' -Wall\n"
        words = ["-I/app/inc", "-I/app/sub", "-I/sys", "-DA", "-DB=1", "-UC", "-includeconf.h"]
        self.assertEqual(self.sources(text), ({"/app/a b.c": words}, []))

    def test_folders(self):
        text = (
            "make[1]: Entering directory '/app/one'\n"
            "gcc -c x.c; cd ../two && gcc -c x.c\n"
            "make[1]: Leaving directory '/app/one'\n"
            "gcc \\\n -c z.c\n"
        )
        self.assertEqual(list(self.sources(text)[0]), ["/app/one/x.c", "/app/two/x.c", "/app/z.c"])

    def test_what_compiles_nothing(self):
        said = ("echo it's -c x.c", "echo gcc -c x.c -o x.o", "/bin/echo gcc -c x.c")
        for line in (*said, "gcc -o x x.o", "gcc -E x.c", "gcc -c x.cpp x.s", "", "rm -f x.c"):
            self.assertEqual(self.sources(line + "\n"), ({}, []), line)

    def test_a_source_that_is_compiled_again(self):
        text = "gcc -DA -c x.c\ngcc -DB -c x.c\ngcc -DA -c x.c\n"
        self.assertEqual(self.sources(text), ({"/app/x.c": ["-DA"]}, ["/app/x.c"]))

    def test_a_database_that_is_none(self):
        for text in ("", "[1]", '[{"file": "x.c"}]', "{"):
            with self.assertRaises(Unreadable):
                list(of_database(text))


class Guesses(unittest.TestCase):
    def test_calls_and_declarations(self):
        text = (
            "void out(int);\nint twice(int x) { return x + x; }\ntypedef void (*callback_t)(void);\n"
            "struct s { callback_t run; int (*put)(int); int n; };\nextern struct s *table[2];\n"
            'int main(void) { out(twice(1)); table[0]->run(); chSysInit(); printf("gone(1)"); return sizeof(int); }\n'
        )
        found = guess({"main.i": text}, Path("/nowhere"))
        self.assertEqual(found.outside, {"out": ("", "main.i:6")})
        self.assertEqual(found.undeclared, {"printf": "main.i:6"})

    def test_hal_toml_is_read_whole(self):
        classes = outside_classes()
        names = re.findall(r'^name = "(.*)"$', (TOP / "include/hal.toml").read_text(), re.M)
        self.assertEqual(list(classes), names)
        self.assertEqual(classes["sdIncomingDataI"], 'class = "I"\nwakes = true')


if __name__ == "__main__":
    unittest.main()
