"""The program `vet` as the tests run it: what `./vet` at the top keeps, proved where that is built, and else unproved.

Building it unproved takes two or three minutes and begins when this module is imported. Only one process may build, so
`python3 -m tests` has it done before the modules begin that import this one.
"""
from __future__ import annotations

import os
import re
import subprocess
import unittest
from concurrent.futures import Future, ThreadPoolExecutor
from pathlib import Path
from typing import Callable, Iterable, TypeVar

from tests.support import EXAMPLES, ROOT, expected
from vet_tools.certificate import Certificate

PROVED = ROOT / "crates" / "vet" / "out" / "vet"
UNPROVED = ROOT / "crates" / "vet_undecided" / "out" / "unproved"
# The environment in which the program runs: a check of the unproved one that fails has the status 86, which no answer has.
CHECKED = {**os.environ, "ASAN_OPTIONS": "exitcode=86"}
Item = TypeVar("Item")
Found = TypeVar("Found")


def _script(*words: str) -> subprocess.CompletedProcess[str]:
    """What `./vet` answers; it builds the program where that is not there."""
    return subprocess.run([str(ROOT / "vet"), *words], capture_output=True, text=True, check=False,
                          stdin=subprocess.DEVNULL)


def _kept() -> Path:
    """The program that `./vet` keeps, which answers as is due to an example. Raises `SkipTest` without the kit."""
    asked = _script("check", str(EXAMPLES / "device_id_posted"), "1")
    if asked.returncode == 127:
        raise unittest.SkipTest("no program is built here, and the kit is not on the path")
    if (asked.returncode, asked.stdout) != expected()["device_id_posted"]:
        raise RuntimeError(f"./vet ended with {asked.returncode}: {asked.stdout}{asked.stderr}")
    path = UNPROVED if "is not built here" in _script("--version").stdout else PROVED
    if not path.exists():
        raise RuntimeError(f"./vet did not keep {path}: {asked.stderr}")
    return path


_BUILT: Future[Path] = ThreadPoolExecutor(1).submit(_kept)


def program() -> Path:
    """The path of the program, once it is built."""
    return _BUILT.result()


def answer(folder: Path, *words: str) -> tuple[int, str]:
    """The status and the text for these words, where relative paths begin at this folder."""
    ran = subprocess.run([str(program()), *words], cwd=folder, capture_output=True, check=False,
                         stdin=subprocess.DEVNULL, env=CHECKED)
    return ran.returncode, ran.stdout.decode()


def by_cells(folder: Path, name: str) -> None:
    """Has an app there judged by the second set of rules: its lists allow one row less than follow by the first."""
    table = folder / f"{name}.cert"
    answer(folder, "certify", name, table.name)
    rows = Certificate.read(str(table)).count
    lists = folder / name / "lists.toml"
    few = f'rows = {rows - 1}\nlarge = "cells"'
    lists.write_text(re.sub(r"^rows = [0-9]+$", few, lists.read_text(), count=1, flags=re.MULTILINE))


_WORKERS = ThreadPoolExecutor(os.cpu_count() or 1)


def begun(work: Callable[..., Found], *words: object) -> Future[Found]:
    """Has this work done, beside other work that was begun."""
    return _WORKERS.submit(work, *words)


def at_once(work: Callable[[Item], Found], items: Iterable[Item]) -> list[Found]:
    """What this work gives for each item, several at once, in the order of the items."""
    return list(_WORKERS.map(work, items))
