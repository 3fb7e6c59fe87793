"""The report of `vet check`: its form, how it is read, and how the program is asked for it.

A report is read exactly as `docs/FORMATS.md` has it ("The report"); what is no report is a `ReportFault`, in one
sentence. Names stay as the program prints them: visible ASCII, any other byte as `\\x` and two hexadecimal digits.
"""
from __future__ import annotations

import os
import re
import subprocess
import sys
import threading
import time
from dataclasses import dataclass
from enum import Enum
from pathlib import Path
from typing import Callable, TypeVar

from vet_tools.shown import in_quotes

ROOT = Path(__file__).resolve().parents[2]
# The exit status of a tool that could not give what it was asked for: none of those of vet's answers, the one with
# which ./vet says that nothing is said of the app, and EX_SOFTWARE of sysexits.h.
NO_ANSWER = 70
Found = TypeVar("Found")


class ReportFault(Exception):
    """What was read is no report; the text is one sentence that says what to do."""


class NoReport(Exception):
    """The program gave no report: `status` is its exit status, the text one sentence."""

    def __init__(self, status: int, text: str) -> None:
        super().__init__(text)
        self.status = status


class Outcome(Enum):
    """The first word of a report."""
    CLEAR = "clear"
    FLAGGED = "flagged"
    UNDECIDED = "undecided"
    REFUSED = "refused"

    @property
    def status(self) -> int:
        """The exit status that `vet` gives with this outcome."""
        return {"clear": 0, "flagged": 1, "undecided": 2, "refused": 3}[self.value]


class CauseKind(Enum):
    """The causes, in the order in which a report has them."""
    NO_SUMMARY = "no summary"
    NATIVE = "native"
    REFLECTIVE = "reflective"
    PROVIDER = "provider"
    LAYOUT_CLASS = "layout class"
    TOO_LARGE = "too large"
    HIDDEN = "hidden"
    INTERFACE_CODE = "interface code"
    PLATFORM_CLASS = "platform class"
    UNLISTED_CLASS = "unlisted class"
    LIBRARY_STATIC = "library static"
    CLICK = "click"
    NAMED_CLASS = "named class"


PLACED = (CauseKind.NO_SUMMARY, CauseKind.NATIVE, CauseKind.REFLECTIVE, CauseKind.LIBRARY_STATIC)


@dataclass(frozen=True)
class Place:
    """An instruction: `method` is `CLASS->NAMEDESCRIPTOR` as printed, `pc` its address in code units."""
    method: str
    pc: int

    def __str__(self) -> str:
        return f"{self.method} @{self.pc}"


@dataclass(frozen=True)
class Cause:
    """A line of `undecided`. Of the kinds in `PLACED` it has a place, of the others a name or a number."""
    kind: CauseKind
    place: Place | None
    subject: str

    def __str__(self) -> str:
        return f"{self.kind.value}: {self.subject}"


@dataclass(frozen=True)
class Finding:
    """An undeclared flow: the categories of source and sink, and the call that sends."""
    source: str
    sink: str
    place: Place

    def __str__(self) -> str:
        return f"{self.source} -> {self.sink} at {self.place}"


@dataclass(frozen=True)
class Report:
    """One report. `part` and `reason` stand where the outcome is refused, and are empty else."""
    outcome: Outcome
    causes: tuple[Cause, ...] = ()
    findings: tuple[Finding, ...] = ()
    part: str = ""
    reason: str = ""

    @property
    def first_line(self) -> str:
        """The line with which the report begins, without its line feed."""
        if self.outcome is Outcome.CLEAR:
            return "clear"
        if self.outcome is Outcome.REFUSED:
            return f"refused {self.part}: {self.reason}"
        counted = self.findings if self.outcome is Outcome.FLAGGED else self.causes
        return f"{self.outcome.value} {len(counted)}"

    def __str__(self) -> str:
        return "".join(f"{line}\n" for line in (self.first_line, *self.causes, *self.findings))


_NAME = r"[!-~]+"
_PLACE = re.compile(rf"({_NAME}->{_NAME}) @(0|[1-9][0-9]{{0,8}})")
_FINDING = re.compile(rf"({_NAME}) -> ({_NAME}) at (.+)")
_COUNTED = re.compile(r"(flagged|undecided) ([1-9][0-9]{0,8})")
_REFUSED = re.compile(rf"refused ({_NAME}): ([ -~]+)")
_ROWS = re.compile(r"[1-9][0-9]{0,6}")


def _place(text: str, line: str) -> Place:
    match = _PLACE.fullmatch(text)
    if match is None:
        raise ReportFault(f"{in_quotes(line)} names no place; hand in the report as vet printed it.")
    return Place(match[1], int(match[2]))


def _cause(line: str) -> Cause | None:
    for kind in CauseKind:
        head = kind.value + ": "
        if line.startswith(head):
            subject = line[len(head):]
            if kind in PLACED:
                return Cause(kind, _place(subject, line), subject)
            if re.fullmatch(_ROWS if kind is CauseKind.TOO_LARGE else _NAME, subject):
                return Cause(kind, None, subject)
    return None


def _finding(line: str) -> Finding | None:
    match = _FINDING.fullmatch(line)
    return Finding(match[1], match[2], _place(match[3], line)) if match else None


def unprinted(name: str) -> bytes:
    """The bytes of a printed name."""
    head, *parts = name.split("\\x")
    return head.encode("ascii") + b"".join(bytes.fromhex(part[:2]) + part[2:].encode("ascii") for part in parts)


def parse(text: str) -> Report:
    """Reads a report. Raises `ReportFault` where the text is none."""
    if not text.endswith("\n"):
        raise ReportFault("The report does not end with a line feed; hand in the whole text that vet printed.")
    first, *rest = text[:-1].split("\n")
    refused = _REFUSED.fullmatch(first)
    if (refused or first == "clear") and rest:
        raise ReportFault(f"A report that begins with {in_quotes(first)} has no other line; hand in one report.")
    if refused:
        return Report(Outcome.REFUSED, part=refused[1], reason=refused[2])
    if first == "clear":
        return Report(Outcome.CLEAR)
    counted = _COUNTED.fullmatch(first)
    if counted is None:
        raise ReportFault(f"{in_quotes(first)} is not the first line of a report; hand in what vet check printed.")
    return _lines(Outcome(counted[1]), int(counted[2]), rest)


def _lines(outcome: Outcome, count: int, lines: list[str]) -> Report:
    """The lines below `flagged N` and `undecided N`: so many causes, and then findings alone."""
    causes: list[Cause] = []
    findings: list[Finding] = []
    for line in lines:
        cause = None if findings else _cause(line)
        finding = None if cause else _finding(line)
        if cause and outcome is Outcome.UNDECIDED:
            causes.append(cause)
        elif finding:
            findings.append(finding)
        else:
            raise ReportFault(f"{in_quotes(line)} is no line of such a report; hand in the report as vet printed it.")
    counted = len(findings) if outcome is Outcome.FLAGGED else len(causes)
    if counted != count:
        raise ReportFault(f"The report says {outcome.value} {count} and has {counted} lines of these; it was cut.")
    order = [list(CauseKind).index(cause.kind) for cause in causes]
    if order != sorted(order):
        raise ReportFault("The causes do not stand in their order; hand in the report as vet printed it.")
    return Report(outcome, tuple(causes), tuple(findings))


def text_of(path: str) -> str:
    """The text of a file, or of the standard input where the path is `-`. Raises `ReportFault`."""
    try:
        data = sys.stdin.buffer.read() if path == "-" else Path(path).read_bytes()
    except OSError as fault:
        raise ReportFault(f"The report {in_quotes(path)} could not be read ({fault.strerror}); "
                          "name a file that can.") from None
    return data.decode("utf-8", "surrogateescape")


def read_file(path: str) -> Report:
    """A report from a file, or from the standard input where the path is `-`."""
    return parse(text_of(path))


def app_folder(path: str) -> Path:
    """The folder of an app, or a `ReportFault` that says what stands there instead."""
    folder = Path(path)
    if folder.is_file():
        what = "an APK: tools/unpack makes its folder" if path.lower().endswith(".apk") else "a file and no folder"
        raise ReportFault(f"{in_quotes(path)} is {what}; name the folder of an unpacked app.")
    if not folder.is_dir():
        raise ReportFault(f"There is no folder {in_quotes(path)}; name the folder of an unpacked app.")
    return folder


def program() -> str:
    """The program that is asked: what the environment variable VET names, else the repository's own `vet`."""
    return os.environ.get("VET") or str(ROOT / "vet")


def run(words: list[str]) -> tuple[int, str]:
    """Runs the program with these words: its exit status and what it printed. What it says on stderr goes there.

    Raises `NoReport` where it could not be started.
    """
    tells = threading.Event()
    clock = threading.Thread(target=_tell_time, args=(f"vet {words[0]}", tells), daemon=True)
    if not os.environ.get("VET"):
        tells.set()  # the repository's own vet tells the time itself
    try:
        clock.start()
        done = subprocess.run([program(), *words], stdin=subprocess.DEVNULL, stdout=subprocess.PIPE, check=False)
    except OSError as fault:
        raise NoReport(NO_ANSWER, f"{in_quotes(program())} could not be started ({fault.strerror}); "
                          "set VET to the vet program.") from None
    finally:
        tells.set()
        clock.join()
    return done.returncode, done.stdout.decode("utf-8", "surrogateescape")


def _tell_time(what: str, ended: threading.Event) -> None:
    """On a terminal, says second by second for how long the program has been running."""
    begin = time.monotonic()
    told = False
    while not ended.wait(1.0):
        if sys.stderr.isatty():
            told = True
            sys.stderr.write(f"\r{what}: {int(time.monotonic() - begin)} s ")
            sys.stderr.flush()
    if told:
        sys.stderr.write("\r\033[K")


def answer_of(words: list[str], reads: Callable[[str], Found], report_in: Callable[[Found], Report]) -> Found:
    """What the program prints for these words, as it is read; its report goes with its status. Raises `NoReport`."""
    status, text = run(words)
    if status < 0:
        raise NoReport(NO_ANSWER, f"vet was ended by the signal {-status} and gave no report; run it again when the "
                                  "cause is gone.")
    if status > 3:
        said = text.splitlines()[0] if text.strip() else "nothing"
        raise NoReport(status, f"vet gave no report (status {status}); it said {in_quotes(said)}. "
                               "docs/FORMATS.md says what to do (\"Other printed lines\").")
    found = reads(text)
    report = report_in(found)
    if report.outcome.status != status:
        raise ReportFault(f"vet ended with the status {status} and printed {in_quotes(report.first_line)}; "
                          "these do not go together, so look at which program VET names.")
    return found


def _of(words: list[str]) -> Report:
    return answer_of(words, parse, lambda found: found)


def check(folder: Path, workers: int) -> Report:
    """What `vet check` says of the app in this folder; raises `NoReport` where it says nothing of it."""
    return _of(["check", str(folder), str(workers)])


def certify(folder: Path, certificate: Path) -> Report:
    """What `vet certify` says; the certificate is in the file afterwards, where there is one."""
    return _of(["certify", str(folder), str(certificate)])
