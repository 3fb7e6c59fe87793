#!/usr/bin/python3
"""Judges a folder of real apps, and puts what came of them into docs/REAL_APPS.md.

usage: real_apps.py [--limit SECONDS] [--workers N] [--at-once N] [--largest BYTES] [--page FILE] FOLDER

Each APK of the folder, the smallest first, goes through tools/unpack, `./vet check` under lists/android.toml, and,
where there was an answer with a table, `./vet certify` and tools/coverage; its report goes through tools/explain and
tools/page, and where one of them fails the page tells it. The part of the page between its two marks
is made anew after each app, so what was done stays where the script is stopped. An app whose check takes more than the
limit (120 seconds) by the clock is stopped, and its row says so; one of more than --largest bytes of DEX is not asked.
With --at-once several apps are judged side by side.

Time is by the clock, in brackets that of the processors; memory is the peak. Where ./vet runs the unproved program, one
run of `certify` stands for both. Another program is asked where VET names one. Needed is what `tools/setup --tests`
installs.
"""
from __future__ import annotations

import argparse
import json
import os
import re
import subprocess
import sys
import tempfile
from collections import Counter
from concurrent.futures import ThreadPoolExecutor, as_completed
from dataclasses import dataclass, field
from pathlib import Path

TOP = Path(__file__).resolve().parents[1]
sys.path.insert(0, str(TOP / "tools"))

from vet_tools.certificate import Certificate  # noqa: E402
from vet_tools.coverage import coverage, percent  # noqa: E402
from vet_tools.explanation import Explanation, explain, java_method  # noqa: E402
from vet_tools.report import CauseKind, Outcome, Report, parse, program  # noqa: E402
from vet_tools.shown import counted  # noqa: E402

BEGIN = "<!-- From here on made by bench/real_apps.py. -->"
END = "<!-- Made until here. -->"
# What an app brings along: the support libraries, and those of Kotlin and Google.
LIBRARIES = ("Landroid/support/", "Landroid/arch/", "Landroidx/", "Lkotlin/", "Lkotlinx/", "Lcom/google/android/gms/",
             "Lcom/google/android/material/", "Lcom/google/gson/")
FEW = 10
HEADS = ("app", "DEX", "classes", "answer", "causes", "findings", "methods reached", "time", "memory")


@dataclass
class Ran:
    """How a run of vet ended: status (none where it was stopped), text, seconds by clock and of processors, KB."""
    status: int | None
    text: str
    clock: float
    spent: float
    peak: int


@dataclass
class App:
    """What came of one APK."""
    name: str
    dex: int = 0
    classes: int = 0
    brought: int = 0
    answer: str = ""
    ran: Ran | None = None
    found: Explanation | None = None
    reached: str = ""
    said: list[str] = field(default_factory=list)
    not_shown: list[str] = field(default_factory=list)


def run(words: list[str], limit: float) -> Ran:
    """Runs vet with these words, for at most so many seconds."""
    with tempfile.NamedTemporaryFile() as out:
        measured = [sys.executable, str(TOP / "bench" / "measured.py"), str(limit), out.name, program(), *words]
        told = json.loads(subprocess.run(measured, stdout=subprocess.PIPE, check=True).stdout)
        return Ran(told["status"], out.read().decode(), told["clock"], told["spent"], told["peak"])


def judge_of() -> str:
    """Which program is asked: `proved`, `unproved`, or `another` where VET names one."""
    if os.environ.get("VET"):
        return "another"
    told = subprocess.run([program(), "--version"], capture_output=True, text=True, check=True).stdout
    return "proved" if "the proved program is built here" in told else "unproved"


def count_classes(app: App, folder: Path) -> None:
    """Counts the classes of the DEX files by dexdump, and those among them that are a library's."""
    for path in sorted(folder.glob("*.dex")):
        told = subprocess.run(["dexdump", str(path)], capture_output=True, check=False).stdout
        names = re.findall(r"^  Class descriptor  : '(.*)'$", told.decode("utf-8", "replace"), re.MULTILINE)
        app.dex += path.stat().st_size
        app.classes += len(names)
        app.brought += sum(name.startswith(LIBRARIES) for name in names)


def answered(app: App, ran: Ran, folder: Path, certificate: Path) -> None:
    """Takes in what vet said, and what was reached where there is a certificate."""
    app.ran = ran
    if ran.status is None:
        app.answer = f"none within {ran.clock:.0f} s"
    elif not 0 <= ran.status <= 3:
        app.answer = f"none, status {ran.status}"
    else:
        report = parse(ran.text)
        app.answer = report.first_line
        app.found = explain(report, folder)
        if certificate.exists():
            found = coverage(folder, Certificate.read(str(certificate)))
            app.reached = f"{len(found.reached)} of {found.with_code} ({percent(len(found.reached), found.with_code)})"


def not_shown(ran: Ran, folder: Path, certificate: Path, work: Path) -> list[str]:
    """What tools/explain and tools/page could not do with this report, a sentence each."""
    (work / "report").write_text(ran.text)
    words = [str(folder), "--report", str(work / "report")]
    counted_by = ["--certificate", str(certificate)] if certificate.exists() else []
    found = []
    for tool, more in (("explain", []), ("page", ["-o", str(work / "app.html"), *counted_by])):
        done = subprocess.run([str(TOP / "tools" / tool), *words, *more], capture_output=True, text=True, check=False)
        if done.returncode != ran.status:
            found.append(f"status {done.returncode}, {done.stderr.strip()}")
    return found


def judge(apk: Path, words: argparse.Namespace, judges: str) -> App:
    """Unpacks and judges one APK."""
    with tempfile.TemporaryDirectory(prefix="real_app_") as work:
        return judge_in(Path(work), apk, words, judges)


def judge_in(work: Path, apk: Path, words: argparse.Namespace, judges: str) -> App:
    """The same in a folder to work in."""
    app, folder, certificate = App(apk.stem), work / "app", work / "app.cert"
    done = subprocess.run([str(TOP / "tools" / "unpack"), str(apk), str(folder)], capture_output=True, text=True,
                          check=False)
    app.said = [line for line in done.stderr.splitlines() if "took the lists" not in line]
    if done.returncode:
        app.answer = "not unpacked: " + " ".join(app.said).removeprefix("tools/unpack: ")
        return app
    count_classes(app, folder)
    if app.dex > words.largest:
        app.answer = f"not asked, more than {words.largest} bytes of DEX"
        return app
    certify = ["certify", str(folder), str(certificate)]
    ran = run(certify if judges == "unproved" else ["check", str(folder), str(words.workers)], words.limit)
    if judges != "unproved" and ran.status in (0, 1, 2) and "\ntoo large: " not in ran.text:
        run(certify, words.limit * 2)
    answered(app, ran, folder, certificate)
    if app.found:
        app.not_shown = not_shown(ran, folder, certificate, work)
    return app


def causes(report: Report) -> str:
    """The causes by kind."""
    kinds = Counter(cause.kind for cause in report.causes)
    return ", ".join(f"{kinds[kind]} {kind.value}" for kind in CauseKind if kinds[kind])


def findings(report: Report) -> str:
    """How many findings, and of which pairs."""
    pairs = sorted({f"{one.source} -> {one.sink}" for one in report.findings})
    shown = ", ".join(pairs[:3]) + (f" and {len(pairs) - 3} pairs more" if len(pairs) > 3 else "")
    return f"{len(report.findings)}: {shown}" if pairs else ""


def row(app: App) -> str:
    """The app's row of the table."""
    report = app.found.report if app.found else None
    ended = app.ran is not None and app.ran.status is not None
    brought = f", {percent(app.brought, app.classes)} brought along" if app.brought else ""
    cells = [f"`{app.name}`", f"{app.dex / 1000:.1f} KB" if app.dex else "",
             f"{app.classes}{brought}" if app.dex else "", app.answer,
             causes(report) if report else "", findings(report) if report else "", app.reached,
             f"{app.ran.clock:.1f} s ({app.ran.spent:.1f})" if ended else "",
             f"{app.ran.peak / 1000:.0f} MB" if ended else ""]
    return f"| {' | '.join(cells)} |"


def called(found: Explanation, kind: CauseKind) -> list[str]:
    """What the causes of one kind call or name, each once with how often."""
    names: Counter[str] = Counter()
    for one in found.of_kind(kind):
        name = str(one.place or one.line).removeprefix(f"{kind.value}: ")
        names[java_method(one.called) if one.called else name] += 1
    return [f"`{name}`" + (f" ({count} times)" if count > 1 else "") for name, count in names.items()]


def has_few(report: Report) -> bool:
    """Whether the app is undecided for few causes that a reviewer can go through; `too large` is none of these."""
    return (report.outcome is Outcome.UNDECIDED and len(report.causes) <= FEW
            and all(cause.kind is not CauseKind.TOO_LARGE for cause in report.causes))


def few(apps: list[App]) -> list[str]:
    """For each undecided app of few causes what these call or name."""
    lines = []
    for app in apps:
        if app.found and has_few(app.found.report):
            lines.append(f"- `{app.name}`")
            for kind in CauseKind:
                if names := called(app.found, kind):
                    lines.append(f"  - {kind.value}: {', '.join(names)}")
    return lines


def plain(line: str) -> str:
    """What tools/unpack said, without the words that begin each of its lines."""
    return line.removeprefix("tools/unpack: ").removeprefix("not carried: ")


def made(apps: list[App], words: argparse.Namespace, judges: str) -> str:
    """The part of the page that is made."""
    by = {"proved": f"the proved program with {counted(words.workers, 'worker')}; time and memory are those of `check`",
          "unproved": "the unproved program, in one run of `certify`; its time and memory say little of the proved "
                      "one's",
          "another": "another program, named by `VET`; time and memory are those of its `check`"}
    lines = [f"{counted(len(apps), 'app')}, judged by {by[judges]}. Time is by the clock, in brackets that of the "
             f"processors. An app was stopped after {words.limit:.0f} s."
             + (f" {words.at_once} ran at once." if words.at_once > 1 else ""), "",
             f"| {' | '.join(HEADS)} |", "|---" * len(HEADS) + "|"]
    lines += [row(app) for app in apps]
    outcomes = Counter(app.found.report.outcome.value if app.found else "no answer" for app in apps)
    lines += ["", ", ".join(f"{count} {name}" for name, count in outcomes.most_common()) + ".", "",
              f"### Undecided, with at most {FEW} causes", "", *(few(apps) or ["None."])]
    said = [f"- `{app.name}`: {'; '.join(plain(line) for line in app.said)}" for app in apps if app.dex and app.said]
    lines += ["", "### What `tools/unpack` said", "", *(said or ["Nothing."])]
    hidden = [f"- `{app.name}`: {'; '.join(app.not_shown)}" for app in apps if app.not_shown]
    lines += ["", "### What `tools/explain` and `tools/page` could not show", "", *(hidden or ["Nothing."])]
    return "\n".join(lines)


def by_size(apk: Path) -> tuple[int, str]:
    """What apps are judged in the order of: the size of the file, and its name."""
    return apk.stat().st_size, apk.name


def main() -> int:
    """Judges the apps, and writes the page after each."""
    parser = argparse.ArgumentParser(description=__doc__, formatter_class=argparse.RawDescriptionHelpFormatter)
    parser.add_argument("folder", type=Path, metavar="FOLDER")
    parser.add_argument("--limit", type=float, default=120, metavar="SECONDS")
    parser.add_argument("--workers", type=int, default=1, metavar="N")
    parser.add_argument("--at-once", type=int, default=1, metavar="N")
    parser.add_argument("--largest", type=int, default=1 << 30, metavar="BYTES")
    parser.add_argument("--page", type=Path, default=TOP / "docs" / "REAL_APPS.md", metavar="FILE")
    words = parser.parse_args()
    text = words.page.read_text()
    head, tail = text[:text.index(BEGIN)], text[text.index(END):]
    judges, apps = judge_of(), []
    with ThreadPoolExecutor(words.at_once) as crew:
        apks = sorted(words.folder.glob("*.apk"), key=by_size)
        for one in as_completed([crew.submit(judge, apk, words, judges) for apk in apks]):
            apps.append(one.result())
            print(row(apps[-1]), flush=True)
            apps.sort(key=lambda app: (app.dex, app.name))
            words.page.write_text(f"{head}{BEGIN}\n\n{made(apps, words, judges)}\n\n{tail}")
    return 0


if __name__ == "__main__":
    sys.exit(main())
