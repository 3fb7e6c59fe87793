"""The stories of findings, as `vet story` prints them behind the report (`docs/FORMATS.md`, "Stories").

They are read strictly: what is none is a `ReportFault`, in one sentence. That a line follows by its rule is vet's to
know; here it is looked at that each names lines before it, and that the last row is an arrival.
"""
from __future__ import annotations

import re
from dataclasses import dataclass
from pathlib import Path
from typing import Iterator

from vet_tools import report
from vet_tools.certificate import CertificateFault, Flat, Kind, row_of
from vet_tools.report import Report, ReportFault
from vet_tools.shown import in_quotes

_HEAD = re.compile(r"^story ([1-9][0-9]{0,9})$", re.MULTILINE)
_LINE = re.compile(r"([1-9][0-9]{0,9}) (?:start|rule ([1-9][0-9]?) from ([1-9][0-9 ]*)): ((?:[0-9a-f]{2})+)")
MOST_PREMISES, RULES = 4, 48


@dataclass(frozen=True)
class StoryLine:
    """A row, the rule by which it follows (0 for a start), and the numbers of the lines from which it does."""
    rule: int
    premises: tuple[int, ...]
    row: Flat


@dataclass(frozen=True)
class Story:
    """The lines of one story, the first being number 1."""
    lines: tuple[StoryLine, ...]

    def line(self, number: int) -> StoryLine:
        """The line of this number."""
        return self.lines[number - 1]


def _fault(line: str) -> ReportFault:
    return ReportFault(f"{in_quotes(line)} is no line of a story there; hand in what vet story printed.")


def _line(text: str, number: int) -> StoryLine:
    match = _LINE.fullmatch(text)
    if match is None or int(match[1]) != number:
        raise _fault(text)
    try:
        premises = tuple(int(word) for word in match[3].split(" ")) if match[2] else ()
        row = row_of(bytes.fromhex(match[4]))
    except (ValueError, CertificateFault):
        raise _fault(text) from None
    rule = int(match[2] or 0)
    if rule > RULES or len(premises) > MOST_PREMISES or any(not 0 < premise < number for premise in premises):
        raise _fault(text)
    return StoryLine(rule, premises, row)


def parse_stories(text: str) -> list[Story]:
    """The stories of a text, one behind the other. Raises `ReportFault`."""
    found: list[Story] = []
    lines: Iterator[str] = iter(text.split("\n")[:-1])
    for head in lines:
        match = _HEAD.fullmatch(head)
        if match is None:
            raise _fault(head)
        story = Story(tuple(_line(next(lines, ""), number) for number in range(1, int(match[1]) + 1)))
        if story.lines[-1].row[0] != Kind.ARRIVE:
            raise ReportFault("A story does not end in an arrival; hand in what vet story printed.")
        found.append(story)
    return found


def parse(text: str) -> tuple[Report, list[Story]]:
    """The report with which a text begins, and the stories behind it: none, or one for each finding."""
    head = _HEAD.search(text)
    begin = head.start() if head else len(text)
    one = report.parse(text[:begin])
    found = parse_stories(text[begin:])
    if found and len(found) != len(one.findings):
        raise ReportFault(f"The report has {len(one.findings)} findings and {len(found)} stories; it was cut.")
    return one, found


def read_file(path: str) -> tuple[Report, list[Story]]:
    """Report and stories from a file, or from the standard input where the path is `-`."""
    return parse(report.text_of(path))


def told(folder: Path) -> tuple[Report, list[Story]]:
    """What `vet story` says of the app in this folder; raises `NoReport` where it says nothing of it."""
    return report.answer_of(["story", str(folder)], parse, lambda found: found[0])
