"""Answers by one worker, two and sixteen: where a limit is passed, and where there is less work than workers."""
from __future__ import annotations

import shutil
import tempfile
import unittest
from pathlib import Path

from tests.program import answer, at_once
from tests.support import EXAMPLES

WORKERS = ("1", "2", "16")


class WorkersTest(unittest.TestCase):

    def test_a_limit_that_is_passed_while_workers_are_at_work(self) -> None:
        with tempfile.TemporaryDirectory(prefix="vet-workers-") as held:
            app = Path(held) / "D"
            shutil.copytree(EXAMPLES / "preferences", app)
            lists = (app / "lists.toml").read_text()
            self.assertEqual(1, lists.count("rows = 200000\n"))
            (app / "lists.toml").write_text(lists.replace("rows = 200000\n", "rows = 10\n"))
            found = at_once(lambda workers: answer(Path(held), "check", "D", workers), WORKERS)
        self.assertEqual([(2, "undecided 1\ntoo large: 10\n")] * 3, found)

    def test_sixteen_workers_on_an_app_of_two_methods(self) -> None:
        found = at_once(lambda workers: answer(EXAMPLES, "make", "7", "1", workers), WORKERS)
        self.assertEqual([(1, "methods 2\nrows 71\nfindings 1\nflagged\n")] * 3, found)


if __name__ == "__main__":
    unittest.main()
