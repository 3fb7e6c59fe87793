"""What the tests share: the examples with their answers, a stand-in for vet, dexdump, and an app with hostile names."""
from __future__ import annotations

import contextlib
import importlib
import io
import os
import re
import shutil
import subprocess
import tempfile
import unittest
from dataclasses import dataclass, field
from pathlib import Path
from unittest import mock

from vet_tools.command import call

TOOLS = Path(__file__).resolve().parents[1]
ROOT = TOOLS.parent
EXAMPLES = ROOT / "examples"
DATA = TOOLS / "tests" / "data"
SHIPPED = {"unlisted_call": ROOT / "crates" / "table_cases" / "data" / "unlisted_call.cert",
           "other_box": DATA / "answers" / "other_box.cert"}


def expected() -> dict[str, tuple[int, str]]:
    """The answers of examples/expected.txt: of each folder the status and the report."""
    found: dict[str, tuple[int, str]] = {}
    for block in (EXAMPLES / "expected.txt").read_text().strip().split("\n\n"):
        head, *lines = block.splitlines()
        name, status = head.split()
        found[name] = (int(status), "".join(f"{line}\n" for line in lines))
    return found


def certificate(name: str) -> Path:
    """The certificate of an example, made by the project or by its native second opinion."""
    return SHIPPED.get(name, DATA / f"{name}.cert")


STAND_IN = """#!/usr/bin/python3
import shutil, sys
from pathlib import Path
words = sys.argv[1:]
answers = Path(__file__).resolve().parent / "answers"
name = Path(words[1]).resolve().name
if not (answers / name).is_file():
    print("unknown command or argument")
    sys.exit(4)
status, text = (answers / name).read_text().split("\\n", 1)
made = answers / (name + ".cert")
if words[0] == "certify" and made.is_file():
    shutil.copyfile(made, words[2])
sys.stdout.write(text)
sys.exit(int(status))
"""


@dataclass(frozen=True)
class Done:
    """How a tool ended, and what it printed."""
    returncode: int
    stdout: str
    stderr: str


class FolderCase(unittest.TestCase):
    """A test with a folder of its own."""

    def setUp(self) -> None:
        held = tempfile.TemporaryDirectory(prefix="vet-test-", ignore_cleanup_errors=True)
        self.addCleanup(held.cleanup)
        self.folder = Path(held.name)


class ToolCase(FolderCase):
    """A test with a stand-in for vet that prints answers worked out by hand."""

    def setUp(self) -> None:
        super().setUp()
        self.vet = self.folder / "vet"
        self.vet.write_text(STAND_IN)
        self.vet.chmod(0o755)
        (self.folder / "answers").mkdir()

    def answer(self, name: str, status: int, text: str, made: Path | None = None) -> None:
        """What the stand-in says of the folder of this name, and the certificate that it makes."""
        (self.folder / "answers" / name).write_text(f"{status}\n{text}")
        if made is not None:
            shutil.copyfile(made, self.folder / "answers" / f"{name}.cert")

    def run_tool(self, name: str, *words: str, vet: str | None = None, stdin: str = "") -> Done:
        """Runs a tool in this process with these words, and vet through the stand-in (or another program)."""
        main = importlib.import_module(f"vet_tools.{name}").main
        given = io.TextIOWrapper(io.BytesIO(stdin.encode()))
        with mock.patch.dict(os.environ, {"VET": vet or str(self.vet)}), mock.patch("sys.stdin", given), \
                contextlib.redirect_stdout(io.StringIO()) as out, contextlib.redirect_stderr(io.StringIO()) as err:
            try:
                status = call(f"tools/{name}", lambda: int(main(list(words))))
            except SystemExit as ended:  # argparse's usage
                status = ended.code if isinstance(ended.code, int) else 1
        return Done(status, out.getvalue(), err.getvalue())

    def spawn(self, name: str, *words: str, vet: str | None = None) -> Done:
        """Runs a tool as a process of its own, as a person does."""
        done = subprocess.run([str(TOOLS / name), *words], capture_output=True, text=True, check=False,
                              env={**os.environ, "VET": vet or str(self.vet)})
        return Done(done.returncode, done.stdout, done.stderr)

    def copied(self, example: str, name: str) -> Path:
        """A copy of an example under another name."""
        target = self.folder / name
        shutil.copytree(EXAMPLES / example, target)
        return target

    def hostile(self) -> Path:
        """The example `location_listener` with names as an attacker writes them, and its answer, by hand.

        The listener is called `<script>xx` and the class that posts `"><img/s/>`; the lists know neither, so the call
        that posted has no summary.
        """
        app = self.copied("location_listener", "hostile")
        dex = (app / "classes.dex").read_bytes()
        for old, new in ((b"La/Listener;", b"L<script>xx;"), (b"Lvendor/Net;", b'L"><img/s/>;')):
            assert dex.count(old + b"\x00") == 1 and len(old) == len(new)
            dex = dex.replace(old + b"\x00", new + b"\x00")
        (app / "classes.dex").write_bytes(dex)
        self.answer("hostile", 2, "undecided 1\nno summary: L<script>xx;->onLocationChanged"
                    "(Landroid/location/Location;)V @4\n")
        return app


@dataclass
class Dumped:
    """A method as dexdump shows it: its instructions by address, and its source lines by address."""
    instructions: dict[int, str] = field(default_factory=dict)
    lines: dict[int, int] = field(default_factory=dict)


def dexdump(path: Path) -> dict[str, Dumped]:
    """What `dexdump -d` says of the methods of a file, by `CLASS->NAMEDESCRIPTOR`."""
    shown = subprocess.run(["dexdump", "-d", str(path)], capture_output=True, check=True)
    found: dict[str, Dumped] = {}
    owner, name, now = "", "", Dumped()
    for line in shown.stdout.decode("utf-8", "replace").split("\n"):
        if match := re.fullmatch(r"    #\d+ +: \(in (.*)\)", line):
            owner = match[1]
        elif match := re.fullmatch(r"      name +: '(.*)'", line):
            name = match[1]
        elif match := re.fullmatch(r"      type +: '(\(.*)'", line):
            now = found.setdefault(f"{owner}->{name}{match[1]}", Dumped())
        elif match := re.match(r"[0-9a-f]{6,}: .*\|([0-9a-f]{4,}): (.*)", line):
            now.instructions[int(match[1], 16)] = match[2]
        elif match := re.fullmatch(r" +0x([0-9a-f]+) line=(\d+)", line):
            now.lines[int(match[1], 16)] = int(match[2])
    return found


def as_reported(dumped: str) -> str:
    """An instruction of dexdump with members written as reports have them, and without dexdump's remark."""
    text = re.sub(r" // (method|field|type|string)@[0-9a-f]+$", "", dumped)
    text = re.sub(r";\.([^.:]+):\(", r";->\1(", text)
    text = re.sub(r"(\[[ZBSCIJFD])\.(\w+):\(", r"\1->\2(", text)
    return re.sub(r";\.([^.:]+):(\S+)$", r";->\1:\2", text)
