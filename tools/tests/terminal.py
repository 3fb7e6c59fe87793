"""A run as a person at a terminal sees it: what a program says on stderr goes to a terminal of its own."""
from __future__ import annotations

import os
import pty
import subprocess
from pathlib import Path


def at_terminal(words: list[str], cwd: Path, env: dict[str, str]) -> tuple[int, str, str]:
    """The status, what the run printed, and what the terminal got."""
    ours, theirs = pty.openpty()
    with os.fdopen(ours, "rb", 0) as terminal:
        with subprocess.Popen(words, cwd=cwd, env=env, stdin=subprocess.DEVNULL, stdout=subprocess.PIPE, stderr=theirs,
                              text=True) as run:
            os.close(theirs)
            said = b""
            try:
                while part := terminal.read(1 << 16):
                    said += part
            except OSError:  # so a terminal tells that nobody is at its other end
                pass
            printed = run.stdout.read() if run.stdout else ""
        return run.returncode, printed, said.decode()
