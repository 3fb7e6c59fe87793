"""`tools/why`: how each finding follows, told as a way from source to sink."""
from __future__ import annotations

import textwrap
from typing import Sequence

from vet_tools import report, story
from vet_tools.command import STATUSES, Words, print_of
from vet_tools.explain import WIDTH
from vet_tools.explanation import Explained, Explanation, explain
from vet_tools.report import Outcome, Report
from vet_tools.shown import as_text
from vet_tools.way import Step, grouped, said

HEAD = ("Each way is a derivation by the rules of the analysis (docs/RULES.md), and may be no run: the analysis mixes "
        "up some things on purpose (docs/REPORT.md, \"A finding\"). Moves from register to register are left out.")


def _where(step: Step) -> list[str]:
    lines = [f"        {'at' if step.instruction else 'in'}   {step.where}"]
    if step.instruction is not None:
        lines.append(f"        {step.instruction.pc:04x} {step.instruction.text}")
    if step.source_line is not None:
        lines.append(f"        line {step.source_line}")
    return lines


def _passed(steps: Sequence[Step]) -> list[str]:
    """Where steps are that only go from call to call, and where the last of them leads."""
    lines = [f"        at   {step.where}" + (f" (line {step.source_line})" if step.source_line else "")
             for step in steps[:-1]]
    return [*lines, f"      at last {steps[-1].says}", *_where(steps[-1])]


def way_text(way: Sequence[Step]) -> list[str]:
    """The steps of a way, numbered; what only goes from call to call for long is one of them."""
    lines: list[str] = []
    for number, steps in enumerate(grouped(way), 1):
        lines.append(f"  {number:>2}. {said(steps)}" + (":" if len(steps) > 1 else ""))
        lines += _passed(steps) if len(steps) > 1 else _where(steps[0])
    return lines


def finding_text(one: Explained) -> list[str]:
    """A finding, and below it its way."""
    lines = [str(one.line), *(f"    {note}" for note in one.notes)]
    lines += way_text(one.way)
    if not one.way:
        lines.append("    Its way could not be told over these files; vet story has it line by line.")
    return [*lines, ""]


def text(found: Explanation) -> str:
    """All findings with their ways, in visible ASCII, ending with a line feed."""
    lines = [found.report.first_line]
    if found.findings:
        lines += [*textwrap.wrap(HEAD, WIDTH), ""]
    elif found.report.outcome is Outcome.UNDECIDED:
        lines.append("Nothing was found, so there is no way to tell; tools/explain says what is undecided.")
    lines += [f"Not shown: {fault}" for fault in found.faults]
    for one in found.findings:
        lines += finding_text(one)
    return as_text(lines)


def main(arguments: list[str] | None = None) -> int:
    """The command; the exit status is that of vet."""
    parser = Words(
        prog="tools/why", description="Runs vet story and tells of each finding how it follows: where the value is "
        "taken, stored, read, passed on and sent, each step with its instruction and the source line where the DEX "
        "file has one.",
        epilog=f"Example: tools/why examples/alias. {STATUSES}")
    parser.add_argument("folder", metavar="DIR", help="the folder of an unpacked app")
    parser.add_argument("--story", metavar="FILE", help="read what vet story printed from FILE (- is the standard "
                        "input) instead of running vet")
    words = parser.parse_args(arguments)

    def made() -> tuple[str, Report]:
        folder = report.app_folder(words.folder)
        one, stories = story.read_file(words.story) if words.story else story.told(folder)
        return text(explain(one, folder, stories)), one

    return print_of("tools/why", made)
