"""The runner of the tests, over small modules beside a copy of it: what it counts and shows, and its exit status."""
from __future__ import annotations

import os
import shutil
import subprocess
import sys
import unittest
from pathlib import Path

from tests.support import FolderCase

TESTS = Path(__file__).resolve().parent
HEAD = "import time, unittest\n\n\nclass One(unittest.TestCase):\n"
MODULES = {
    "passes": HEAD + "    def test_a(self): print('as it is')\n    def test_b(self): pass\n",
    "skips": HEAD + "    def test_a(self): self.skipTest('not here')\n    def test_b(self): pass\n",
    "fails": HEAD + "    def test_a(self): self.assertEqual('this', 'that')\n",
    "empty": HEAD + "    pass\n",
    "ends": "import os\nos._exit(0)\n",
}
# What stands in for the program, which is built once.
PROGRAM = "import pathlib\n\n\ndef program():\n    with open('built', 'a') as file: file.write('x')\n"
ASKS = "import os, unittest\nfrom tests.program import program\n\n\nclass One(unittest.TestCase):\n" \
       "    def test_a(self): self.assertEqual(open('built').read(), 'x')\n"


class Runner(FolderCase):
    def setUp(self) -> None:
        super().setUp()
        (self.folder / "tests").mkdir()
        shutil.copy(TESTS / "__main__.py", self.folder / "tests")
        self.write("__init__", "")

    def write(self, name: str, text: str) -> None:
        """Writes a module of the folder."""
        (self.folder / "tests" / f"{name}.py").write_text(text)

    def run_it(self, *words: str, **modules: str) -> tuple[int, list[str]]:
        """The exit status of the runner over these modules of tests, and the lines that it printed."""
        for name, text in modules.items():
            self.write(f"test_{name}", text)
        done = subprocess.run([sys.executable, "-m", "tests", *words], cwd=self.folder, capture_output=True, text=True,
                              check=False, env={**os.environ, "PYTHONDONTWRITEBYTECODE": "1"})
        self.assertEqual(done.stderr, "")
        return done.returncode, done.stdout.splitlines()

    def named(self, *names: str) -> dict[str, str]:
        return {name: MODULES[name] for name in names}

    def test_all_modules_are_counted_and_shown(self) -> None:
        status, lines = self.run_it(**self.named("passes", "skips"))
        self.assertEqual(status, 0)
        self.assertRegex(lines[-1], r"^4 tests of 2 modules in \d+ s, 1 skipped; failed: none$")
        self.assertIn("as it is", lines)
        self.assertEqual(sorted(line.split(",")[0] for line in lines if line.startswith("== ")),
                         ["== passes", "== skips"])

    def test_one_that_fails_is_named_and_shown(self) -> None:
        status, lines = self.run_it(**self.named("passes", "fails"))
        self.assertEqual(status, 1)
        self.assertRegex(lines[-1], r"^3 tests of 2 modules in \d+ s, 0 skipped; failed: fails$")
        self.assertIn("AssertionError: 'this' != 'that'", lines)

    def test_a_module_without_a_test_and_one_that_ends_early_have_failed(self) -> None:
        status, lines = self.run_it(**self.named("passes", "empty", "ends"))
        self.assertEqual(status, 1)
        self.assertRegex(lines[-1], r"failed: empty, ends$")

    def test_modules_and_tests_are_run_by_name(self) -> None:
        modules = self.named("passes", "fails")
        for name, count in (("passes", "2 tests"), ("passes.One.test_b", "1 tests")):
            status, lines = self.run_it(name, **modules)
            self.assertEqual(status, 0)
            self.assertTrue(lines[-1].startswith(f"{count} of 1 modules"), lines[-1])
        self.assertEqual(self.run_it("unheard", **modules)[0], 1)

    def test_the_program_is_built_once_before_the_modules_that_need_it(self) -> None:
        self.write("program", PROGRAM)
        status, lines = self.run_it(one=ASKS, two=ASKS, passes=MODULES["passes"])
        self.assertEqual(status, 0, lines)
        self.assertTrue(lines[-1].startswith("4 tests of 3 modules"))

    def test_where_it_cannot_be_built_the_modules_that_need_it_have_failed(self) -> None:
        self.write("program", "def program():\n    raise RuntimeError('no such name')\n")
        status, lines = self.run_it(one=ASKS, passes=MODULES["passes"])
        self.assertEqual(status, 1)
        self.assertIn("no such name", lines)
        self.assertRegex(lines[-1], r"^2 tests of 2 modules in \d+ s, 0 skipped; failed: one$")

    def test_they_run_side_by_side(self) -> None:
        if len(os.sched_getaffinity(0)) < 2:
            self.skipTest("one processor runs one module at a time")
        # Each ends once the other one has begun.
        waits = "import os, time, unittest\n\n\nclass One(unittest.TestCase):\n    def test_a(self):\n" \
                "        open('{0}', 'w').close()\n        for _ in range(600):\n" \
                "            if os.path.exists('{1}'): return\n            time.sleep(0.05)\n        self.fail()\n"
        status, lines = self.run_it(one=waits.format("a", "b"), two=waits.format("b", "a"))
        self.assertEqual(status, 0, lines)


if __name__ == "__main__":
    unittest.main()
