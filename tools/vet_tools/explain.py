"""`tools/explain`: a report of vet with the code behind each line, and what to do."""
from __future__ import annotations

import textwrap

from vet_tools import advice
from vet_tools.command import STATUSES, Words, add_folder, print_of, report_of
from vet_tools.explanation import Explained, Explanation, MissingClass, explain
from vet_tools.java_names import java_method, java_place
from vet_tools.list_rows import rows
from vet_tools.report import CauseKind, Outcome, Report
from vet_tools.shown import as_text, counted

WIDTH = 118
KEPT = "The answer is that of vet, passed on as it is; what stands here is where to look."
HEADS = {CauseKind.NATIVE: "native code", CauseKind.REFLECTIVE: "methods chosen by name",
         CauseKind.PROVIDER: "content providers", CauseKind.LAYOUT_CLASS: "classes of the app in layouts",
         CauseKind.TOO_LARGE: "more facts than the lists allow",
         CauseKind.HIDDEN: "methods in whose place one further up runs",
         CauseKind.INTERFACE_CODE: "methods of interfaces with code",
         CauseKind.PLATFORM_CLASS: "classes with names of the platform",
         CauseKind.UNLISTED_CLASS: "classes above the app's that the lists do not have",
         CauseKind.LIBRARY_STATIC: "static fields of the library",
         CauseKind.CLICK: "clicks that the machine does not bring",
         CauseKind.NAMED_CLASS: "classes of the app that are named elsewhere"}


def missing_title(group: MissingClass) -> tuple[str, str]:
    """A missing class with the others that the object may be of, and whether the lists have it."""
    names = " or ".join([group.name, *group.others])
    return names, "the lists have it, but nothing for this call" if group.listed else "the lists do not have it"


def summary_title(found: Explanation) -> str:
    """How many calls come to how many missing methods and classes."""
    calls = len(found.of_kind(CauseKind.NO_SUMMARY))
    methods = sum(len(group.methods) for group in found.missing)
    return (f"{counted(calls, 'call')} without a summary, of {counted(methods, 'method')} "
            f"of {counted(len(found.missing), 'class', 'classes')}")


def _filled(text: str, head: str) -> list[str]:
    return textwrap.wrap(text, WIDTH, initial_indent=f"{head} ", subsequent_indent="  ", break_on_hyphens=False,
                         break_long_words=False)


def _advice(one: advice.Advice) -> list[str]:
    return [*_filled(one.developer, "Developer:"), *_filled(one.reviewer, "Reviewer:"), ""]


def line_text(one: Explained, indent: str = "") -> list[str]:
    """A line of the report, and below it where it stands, its instruction, what is called, and the source line."""
    rows_: list[tuple[str, str]] = []
    if one.method is not None:
        rows_.append(("in", java_place(one.method)))
    if one.instruction is not None:
        rows_.append((f"{one.instruction.pc:04x}", one.instruction.text))
    if one.called is not None:
        rows_.append(("calls", java_method(one.called)))
    if one.source_line is not None:
        rows_.append(("line", str(one.source_line)))
    rows_ += [("note", note) for note in one.notes]
    rows_ += [("way", f"{step.where}: {step.says}") for step in one.way]
    return [f"{indent}{one.line}", *(f"{indent}    {key:<6} {value}" for key, value in rows_), ""]


def _findings(found: Explanation) -> list[str]:
    if not found.findings:
        return []
    lines = [f"== {counted(len(found.findings), 'finding')} ==", *_advice(advice.FINDING)]
    for one in found.findings:
        lines += line_text(one)
    return lines


def _no_summary(found: Explanation) -> list[str]:
    if not found.of_kind(CauseKind.NO_SUMMARY):
        return []
    lines = [f"== {summary_title(found)} ==", *_advice(advice.CAUSES[CauseKind.NO_SUMMARY])]
    for group in found.missing:
        lines.append("{} ({})".format(*missing_title(group)))
        for method in group.methods.values():
            lines.append(f"  {group.java_method(method)}: {counted(len(method.lines), 'call')}")
            for one in method.lines:
                lines += line_text(one, "    ")
    for one in found.unknown():
        lines += line_text(one)
    return lines


def _others(found: Explanation) -> list[str]:
    lines: list[str] = []
    for kind, head in HEADS.items():
        ones = found.of_kind(kind)
        if ones:
            lines += [f"== {counted(len(ones), 'cause')}: {head} ==", *_advice(advice.CAUSES[kind])]
            for one in ones:
                lines += line_text(one)
    return lines


def _refused(one: Report) -> list[str]:
    mend = advice.refusal(one)
    if mend is None:
        return ["docs/FORMATS.md has the reasons of refusals."]
    return [*_filled(mend.wrong, "What is wrong:"), *_filled(mend.do, "What to do:")]


def text(found: Explanation) -> str:
    """The whole explanation, in visible ASCII, ending with a line feed."""
    one = advice.OUTCOMES[found.report.outcome]
    lines = [found.report.first_line, *textwrap.wrap(one.says, WIDTH),
             *textwrap.wrap(f"{one.developer} {one.reviewer}", WIDTH), KEPT, ""]
    lines += [f"Not shown: {fault}" for fault in found.faults]
    if found.report.outcome is Outcome.REFUSED:
        lines += _refused(found.report)
    lines += [*_no_summary(found), *_others(found), *_findings(found)]
    added = rows(found)
    if added:
        lines += ["== rows for lists.toml ==", added]
    return as_text(lines)


def main(arguments: list[str] | None = None) -> int:
    """The command; the exit status is that of vet."""
    parser = Words(
        prog="tools/explain", description="Runs vet check and puts behind each line of its report the instruction, the "
        "method that is called, the source line where the DEX file has one, and what to do. Calls without a summary "
        "are put together by class and method, with rows for lists.toml.",
        epilog=f"Example: tools/explain examples/unlisted_call. {STATUSES}")
    add_folder(parser)
    parser.add_argument("--rows", action="store_true", help="print the rows for lists.toml and nothing else")
    words = parser.parse_args(arguments)

    def made() -> tuple[str, Report]:
        one, folder = report_of(words)
        found = explain(one, folder)
        return (rows if words.rows else text)(found), one

    return print_of("tools/explain", made)
