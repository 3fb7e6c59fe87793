"""Runs the modules of tests, as many side by side as there are processors, each in a process of its own.

The program that some of them run is built, or found to be there, beside those that need none. What a module prints is
shown whole when it has ended. The last line says how many tests there were, and which modules failed; where one did,
the exit status is 1.
"""
from __future__ import annotations

import os
import re
import subprocess
import sys
import tempfile
import time
from concurrent.futures import Future, ThreadPoolExecutor, as_completed
from dataclasses import dataclass
from pathlib import Path
from unittest import SkipTest

TESTS = Path(__file__).resolve().parent
# The modules that take longest begin first; those that need the program come last, since it may have to be built.
DEAREST = ("vet_script", "reviewer", "unpack", "make_lists", "vet_second",
           "vet_submit", "vet_lists", "vet_answers", "vet_device", "vet_certificates", "vet_commands", "vet_ways",
           "vet_story", "vet_code")
NEEDS_PROGRAM = "\nfrom tests.program import"


@dataclass(frozen=True)
class Ended:
    """How a module ended: what it printed, how many tests it ran and skipped, and its seconds by the clock."""
    name: str
    passed: bool
    text: str
    tests: int = 0
    skipped: int = 0
    seconds: float = 0


def needs_program(name: str) -> bool:
    """Whether a module runs the program."""
    file = TESTS / f"test_{name.split('.')[0]}.py"
    return file.is_file() and NEEDS_PROGRAM in file.read_text()


def build() -> None:
    """Builds the program where it is not there. Without a kit nothing is built, and the tests that need it say so."""
    from tests.program import program  # only here: the build begins as this is imported
    try:
        program()
    except SkipTest:
        pass


def number(told: str, text: str) -> int:
    """The number in what unittest said, 0 where it said nothing of it."""
    found = re.search(told, text, re.MULTILINE)
    return int(found[1]) if found else 0


def run(name: str, built: Future[None] | None) -> Ended:
    """Runs a module, or what of it is named behind a dot; one that needs the program, once that is built."""
    if built and (fault := built.exception()):
        return Ended(name, False, f"{fault}\n")
    began = time.monotonic()
    with tempfile.TemporaryFile() as printed:  # and no pipe: what a test leaves running would hold that open
        done = subprocess.run([sys.executable, "-m", "unittest", f"tests.test_{name}"], cwd=TESTS.parent, check=False,
                              stdin=subprocess.DEVNULL, stdout=printed, stderr=subprocess.STDOUT)
        printed.seek(0)
        text = printed.read().decode(errors="replace")
    tests, skipped = number(r"^Ran (\d+) tests? in ", text), number(r"^(?:OK|FAILED) .*skipped=(\d+)", text)
    return Ended(name, done.returncode == 0 and tests > 0, text, tests, skipped, time.monotonic() - began)


def in_order(names: list[str]) -> list[str]:
    """The modules in the order in which they begin."""
    rank = {name: place for place, name in enumerate(DEAREST)}
    return sorted(names, key=lambda name: (needs_program(name), rank.get(name, len(rank)), name))


def run_all(names: list[str]) -> list[Ended]:
    """Runs these modules, and shows of each what it printed."""
    ended: list[Ended] = []
    with ThreadPoolExecutor(len(os.sched_getaffinity(0))) as pool:
        built = pool.submit(build) if any(map(needs_program, names)) else None
        running = [pool.submit(run, name, built if needs_program(name) else None) for name in in_order(names)]
        try:
            for one in as_completed(running):
                ended.append(one.result())
                print(f"== {ended[-1].name}, {ended[-1].seconds:.0f} s\n{ended[-1].text}", flush=True)
        except KeyboardInterrupt:
            pool.shutdown(cancel_futures=True)
            raise
    return ended


def main(names: list[str]) -> int:
    """Runs these modules, or all where none is named, and gives the exit status."""
    began = time.monotonic()
    ended = run_all(names or [file.stem.removeprefix("test_") for file in TESTS.glob("test_*.py")])
    tests, skipped = sum(one.tests for one in ended), sum(one.skipped for one in ended)
    failed = sorted(one.name for one in ended if not one.passed)
    print(f"{tests} tests of {len(ended)} modules in {time.monotonic() - began:.0f} s, {skipped} skipped; "
          f"failed: {', '.join(failed) or 'none'}")
    return 1 if failed else 0


if __name__ == "__main__":
    sys.exit(main(sys.argv[1:]))
