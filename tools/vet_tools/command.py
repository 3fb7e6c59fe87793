"""What the commands share: their words, their sentences on stderr, and that no trace of Python reaches the person."""
from __future__ import annotations

import argparse
import os
import re
import sys
from pathlib import Path
from typing import Callable, NoReturn

from vet_tools import forms, report, story
from vet_tools.report import NO_ANSWER, NoReport, Report, ReportFault
from vet_tools.shown import in_quotes
from vet_tools.story import Story
from vet_tools.whole_file import write_whole


NO_COMMAND = 4  # as vet has it for words that are none of its commands
STATUSES = ("The exit status is that of vet: 0 clear, 1 flagged, 2 undecided, 3 refused, further ones where it gave "
            f"no report; {NO_COMMAND} also where these words are no command, and {NO_ANSWER} where the tool could not "
            f"do what it was asked for. From {NO_COMMAND} on nothing is said of the app.")


class Words(argparse.ArgumentParser):
    """A parser of words which are refused with a status that is none of vet's answers."""

    def error(self, message: str) -> NoReturn:
        """Says what is wrong with the words, and ends."""
        self.print_usage(sys.stderr)
        self.exit(NO_COMMAND, f"{self.prog}: error: {message}\n")


def workers(word: str) -> int:
    """A number of workers, 1 to 16, for argparse."""
    if not word.isascii() or not word.isdigit() or not 1 <= int(word[:3]) <= 16:
        raise argparse.ArgumentTypeError("give a number from 1 to 16")
    return int(word)


def add_folder(parser: argparse.ArgumentParser) -> None:
    """The words that explain, page and sarif share: the folder, a report from a file, the workers."""
    parser.add_argument("folder", metavar="DIR", help="the folder of an unpacked app")
    parser.add_argument("--report", metavar="FILE", help="read the report from FILE (- is the standard input) instead "
                        "of running vet")
    parser.add_argument("--workers", type=workers, default=min(16, os.cpu_count() or 1), metavar="N",
                        help="threads of vet, 1 to 16; no answer depends on it")


def add_ways(parser: argparse.ArgumentParser) -> None:
    """The words by which page and sarif tell the ways of findings, or do not."""
    parser.add_argument("--ways", action=argparse.BooleanOptionalAction, default=None,
                        help="tell how each finding follows, by vet story, which works longer than vet check; without "
                        "these words it is told where vet is run anyway")


def ways_of(words: argparse.Namespace, folder: Path, one: Report) -> tuple[list[Story], list[str]]:
    """The stories of this report, where they are wanted, and sentences on why there are none.

    Raises `ReportFault`, also where vet now says another report. Where `--ways` asks for them it raises `NoReport`.
    """
    asked_besides = not words.report and not getattr(words, "certificate", None)
    if not one.findings or not (asked_besides if words.ways is None else words.ways):
        return [], []
    try:
        said, stories = story.told(folder)
    except NoReport as fault:
        if words.ways:
            raise
        return [], [f"the ways of the findings, since {fault}"]
    if said != one:
        raise ReportFault("What vet story says now is not the report; hand in the report of these very files.")
    return stories, []


def report_of(words: argparse.Namespace) -> tuple[Report, Path]:
    """The report that these words ask for, and the app's folder. Raises `ReportFault` and `NoReport`."""
    folder = report.app_folder(words.folder)
    if words.report:
        return report.read_file(words.report), folder
    return report.check(folder, words.workers), folder


def refuse(tool: str, fault: Exception) -> int:
    """Says on stderr, in one sentence, why the tool gives nothing; the exit status."""
    print(f"{tool}: {fault}", file=sys.stderr)
    return fault.status if isinstance(fault, NoReport) else NO_ANSWER


def print_of(tool: str, made: Callable[[], tuple[str, Report]]) -> int:
    """Prints what a tool makes of a report of vet, or says why there is none; the exit status.

    What is made comes with the report, of which the status is.
    """
    try:
        text, one = made()
    except (ReportFault, NoReport) as fault:
        return refuse(tool, fault)
    sys.stdout.write(text)
    return one.outcome.status


def write(target: Path, text: str, folder: Path, given: tuple[str | None, ...] = ()) -> None:
    """Writes a text beside its place and moves it there, so that nothing is left half written.

    Raises `ReportFault`, also where the place is a file of the app or one of those that were given.
    """
    read = target.name in forms.FORMS or re.fullmatch(r"classes\d*\.dex", target.name)
    what = ""
    if target.is_dir():
        what = "a folder"
    elif read and target.parent.resolve() == folder.resolve():
        what = "a file of the app"
    elif any(path and Path(path).resolve() == target.resolve() for path in given):
        what = "a file that is read"
    if what:
        raise ReportFault(f"{in_quotes(str(target))} is {what}; name another file after -o.")
    try:
        write_whole(target, text)
    except OSError as fault:
        raise ReportFault(f"{in_quotes(str(target))} could not be written ({fault.strerror}); name another file "
                          "after -o.") from None


def call(tool: str, main: Callable[[], int]) -> int:
    """Runs a command. What it did not foresee is said in one sentence; a closed pipe ends it without one."""
    try:
        status = main()
        sys.stdout.flush()
        return status
    except BrokenPipeError:
        os.dup2(os.open(os.devnull, os.O_WRONLY), sys.stdout.fileno())
        return NO_ANSWER
    except KeyboardInterrupt:
        print(f"{tool}: stopped", file=sys.stderr)
        return 130
    except MemoryError:
        print(f"{tool}: out of memory; run it again with more, or on a smaller app.", file=sys.stderr)
        return 7
    except ModuleNotFoundError as fault:
        print(f"{tool}: Python's {fault.name} is not there; tools/setup installs what the tools stand on.",
              file=sys.stderr)
        return NO_ANSWER
    except Exception as fault:  # the last resort, so that the person gets a sentence
        print(f"{tool}: a fault of the tool itself ({type(fault).__name__}); vet's own report is not touched by it, "
              "so run ./vet and tell the office.", file=sys.stderr)
        return NO_ANSWER
