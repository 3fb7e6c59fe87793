"""What a person at a terminal is told while a tool works: from the first second on, and taken away again."""
from __future__ import annotations

import io
import os
import unittest
from unittest import mock

from tests.support import EXAMPLES, TOOLS, ToolCase
from tests.terminal import at_terminal
from vet_tools.progress import Progress, tell

TAKEN_AWAY = "\r\x1b[K"
SLOW = "#!/bin/sh\nsleep 2.5\necho clear\n"


class Terminal(io.StringIO):
    """A terminal that keeps what it gets."""

    def isatty(self) -> bool:
        return True


class Line(unittest.TestCase):
    def said(self, terminal: io.StringIO, *steps: tuple[float, str, bool]) -> str:
        """What stderr gets where these steps are told, each at its second and as one that lasts or not."""
        with mock.patch("sys.stderr", terminal), mock.patch("time.monotonic") as clock:
            clock.return_value = 100.0
            progress = Progress("unpack")
            for second, text, lasts in steps:
                clock.return_value = 100 + second
                progress.say(text, lasts)
            progress.end()
        return terminal.getvalue()

    def test_it_comes_after_a_second_and_is_taken_away(self) -> None:
        self.assertEqual(self.said(Terminal(), (0.9, "one", False), (1.1, "two", False), (1.2, "three", False),
                                   (1.4, "four", False)),
                         f"{TAKEN_AWAY}unpack: two{TAKEN_AWAY}unpack: four{TAKEN_AWAY}")

    def test_a_step_that_lasts_is_told_at_once(self) -> None:
        self.assertEqual(self.said(Terminal(), (0.1, "long", True)), f"{TAKEN_AWAY}unpack: long{TAKEN_AWAY}")

    def test_what_ends_soon_and_what_nobody_looks_at_is_not_told(self) -> None:
        self.assertEqual(self.said(Terminal(), (0.9, "one", False)), "")
        self.assertEqual(self.said(io.StringIO(), (5, "one", True)), "")
        with mock.patch("sys.stderr", io.StringIO()) as file:
            tell("reading")
        self.assertEqual(file.getvalue(), "")


class Seconds(ToolCase):
    def test_a_check_that_takes_long_tells_its_seconds_to_a_terminal_alone(self) -> None:
        self.vet.write_text(SLOW)
        words, env = [str(TOOLS / "explain"), str(EXAMPLES / "declared")], {**os.environ, "VET": str(self.vet)}
        status, printed, said = at_terminal(words, self.folder, env)
        self.assertEqual((status, printed.split("\n")[0]), (0, "clear"))
        self.assertRegex(said, r"^(\rvet check: \d+ s )+\r\x1b\[K$")
        done = self.spawn("explain", str(EXAMPLES / "declared"))
        self.assertEqual((done.returncode, done.stdout, done.stderr), (0, printed, ""))


if __name__ == "__main__":
    unittest.main()
