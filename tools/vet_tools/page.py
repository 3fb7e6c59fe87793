"""`tools/page`: one HTML page about one app that needs nothing else: no script, no picture, no request.

Every text of the app goes through `html.escape`; a content security policy forbids the rest.
"""
from __future__ import annotations

import argparse
import base64
import hashlib
import re
import sys
import tempfile
from dataclasses import dataclass
from html import escape
from pathlib import Path
from typing import Sequence

from vet_tools import advice, forms, report
from vet_tools.advice import Advice
from vet_tools.certificate import Certificate, CertificateFault, NoCertificate
from vet_tools.command import STATUSES, Words, add_folder, add_ways, refuse, report_of, ways_of, write
from vet_tools.coverage import CAUSES, Coverage, CoverageFault, Places, coverage, percent
from vet_tools.dex_code import DexFault
from vet_tools.explain import HEADS, KEPT, missing_title, summary_title
from vet_tools.explanation import Explained, Explanation, explain
from vet_tools.forms import FormFault
from vet_tools.java_names import java_method, java_place
from vet_tools.list_rows import rows
from vet_tools.report import CauseKind, NoReport, Outcome, Report, ReportFault
from vet_tools.shown import counted, in_quotes
from vet_tools.way import Step, grouped, said

STYLE = Path(__file__).with_name("page.css")
BEFORE, AFTER = 5, 2
NAME = ' class="name"'
SHORT = ("kind", "category")  # columns of single words, which are not broken
SIGNS = {Outcome.CLEAR: "\u2713", Outcome.FLAGGED: "\u2691", Outcome.UNDECIDED: "?", Outcome.REFUSED: "\u2715"}


@dataclass
class Subject:
    """What a page is about: the explained report, what was reached (or why that is not known), and what was read."""
    found: Explanation
    reached: Coverage | None
    not_reached: str
    package: str
    digest: str


def _next(one: Advice) -> str:
    return (f'<dl class="next"><dt>Developer</dt><dd>{escape(one.developer)}</dd>'
            f"<dt>Reviewer</dt><dd>{escape(one.reviewer)}</dd></dl>")


def _section(name: str, title: str, body: str) -> str:
    return (f'<section id="{name}" aria-labelledby="{name}-title"><h2 id="{name}-title">{escape(title)}</h2>\n'
            f"{body}</section>\n")


def _pre(body: str, label: str) -> str:
    """Preformatted text that can be scrolled by keyboard; `body` is HTML."""
    return f'<pre tabindex="0" role="group" aria-label="{escape(label)}">{body}</pre>\n'


def _code(one: Explained, before: int = BEFORE, after: int = AFTER) -> str:
    """The instruction of a line among those around it."""
    if one.method is None or one.instruction is None:
        return ""
    around = list(one.method.instructions().values())
    at = next(number for number, each in enumerate(around) if each.pc == one.instruction.pc)
    first = max(0, at - before)
    lines = []
    for each in around[first:at + after + 1]:
        text = f"{each.pc:04x}  {escape(each.text)}"
        lines.append(f"<mark>{text}</mark>" if each.pc == one.instruction.pc else text)
    if first:
        lines.insert(0, '<span class="dim">      ..</span>')
    return _pre("\n".join(lines), f"code at {one.instruction.pc}")


def _place(step: Step) -> str:
    line = f" <span class=\"dim\">({escape(str(step.source_line))})</span>" if step.source_line else ""
    return f"<br><span class=\"name\">{escape(step.where)}</span>{line}"


def _steps(steps: Sequence[Step]) -> str:
    """A step, or several that only go from call to call: where each is, and the instruction of the last."""
    last = steps[-1]
    code = f"<br><code>{escape(last.instruction.text)}</code>" if last.instruction else ""
    ends = f"<br>at last {escape(last.says)}" if len(steps) > 1 else ""
    kind = "" if any(step.essential for step in steps) else ' class="besides"'
    return f"<li{kind}>{escape(said(steps))}{''.join(map(_place, steps[:-1]))}{ends}{_place(last)}{code}</li>"


def _way(one: Explained) -> str:
    """The way from source to sink, where one is known."""
    if not one.way:
        return ""
    return f'<h4>The way to the sink</h4><ol class="way">{"".join(map(_steps, grouped(one.way)))}</ol>'


def _behind(one: Explained, grouped: bool = False) -> str:
    """What stands behind a line: method, source line, called method, notes, code, way; shorter in a group."""
    parts = []
    if one.method is not None:
        line = f", {escape(str(one.source_line))}" if one.source_line else ""
        parts.append(f'In <span class="name">{escape(java_place(one.method))}</span>{line}')
    if one.called is not None and not grouped:
        parts.append(f'calls <span class="name">{escape(java_method(one.called))}</span>')
    text = f"<p>{'; '.join(parts)}.</p>\n" if parts else ""
    text += "".join(f"<p>{escape(note[:1].upper() + note[1:])}.</p>\n" for note in one.notes)
    return text + (_code(one, 2, 1) if grouped else _code(one)) + _way(one)


def _item(one: Explained, name: str, head: str = "h3") -> str:
    return (f'<article class="item" id="{name}"><{head} class="name">{escape(str(one.line))}</{head}>\n'
            f"{_behind(one)}</article>\n")


def _findings(found: Explanation) -> str:
    if not found.findings:
        return ""
    items = "".join(_item(one, f"finding-{number}") for number, one in enumerate(found.findings, 1))
    return _section("findings", counted(len(found.findings), "finding"),
                    f"<p>{escape(advice.FINDING.says)}</p>\n{_next(advice.FINDING)}\n{items}")


def _missing(found: Explanation) -> str:
    if not found.of_kind(CauseKind.NO_SUMMARY):
        return ""
    one = advice.CAUSES[CauseKind.NO_SUMMARY]
    text = f"<p>{escape(one.says)}</p>\n{_next(one)}\n"
    for group in found.missing:
        names, listed = missing_title(group)
        text += f'<h3><span class="name">{escape(names)}</span> <small>({escape(listed)})</small></h3>\n'
        for method in group.methods.values():
            calls = counted(len(method.lines), "call")
            text += ('<details open class="item"><summary>'
                     f'<span class="name">{escape(group.java_method(method))}</span>: {calls}</summary>\n')
            for line in method.lines:
                text += f'<h4 class="name">{escape(str(line.line))}</h4>\n{_behind(line, True)}'
            text += "</details>\n"
    for number, line in enumerate(found.unknown(), 1):
        text += _item(line, f"unknown-{number}")
    return _section("missing", summary_title(found), text)


def _causes(found: Explanation) -> str:
    text = ""
    for kind, head in HEADS.items():
        ones = found.of_kind(kind)
        if ones:
            name = kind.value.replace(" ", "-")
            items = "".join(_item(one, f"{name}-{number}") for number, one in enumerate(ones, 1))
            one = advice.CAUSES[kind]
            text += _section(name, f"{counted(len(ones), 'cause')}: {head}",
                             f"<p>{escape(one.says)}</p>\n{_next(one)}\n{items}")
    return text


def _rows(found: Explanation) -> str:
    text = rows(found)
    if not text:
        return ""
    return _section("rows", "Rows for lists.toml", _pre(escape(text), "rows for lists.toml"))


def _table(caption: str, heads: list[str], lines: list[list[str]], numbers: int = 0) -> str:
    """A table; the last `numbers` columns are numbers. Cells are texts."""
    def kind(at: int, plain: str) -> str:
        if heads[at] in SHORT:
            return ' class="short"'
        return ' class="number"' if at >= len(heads) - numbers else plain
    head = "".join(f'<th scope="col"{kind(at, "")}>{escape(one)}</th>' for at, one in enumerate(heads))
    body = "".join("<tr>" + "".join(f'<td{kind(at, NAME)} data-head="{escape(heads[at])}">{escape(cell)}</td>'
                                    for at, cell in enumerate(line)) + "</tr>\n" for line in lines)
    return (f'<table class="wide"><caption>{escape(caption)}</caption><thead><tr>{head}</tr></thead>\n'
            f"<tbody>{body}</tbody></table>\n")


def _met(caption: str, found: dict[tuple[str, str], Places], heads: list[str]) -> str:
    if not found:
        return f"<p><strong>{escape(caption)}</strong>: none</p>\n"
    return _table(caption, [*heads, "places"], [[first, second, str(len(places))]
                                                for (first, second), places in sorted(found.items())], 1)


def _coverage(subject: Subject) -> str:
    found = subject.reached
    if found is None:
        return _section("coverage", "What was reached", f"<p>Not known: {escape(subject.not_reached)}</p>\n")
    share = percent(len(found.reached), found.with_code)
    text = "".join(f'<p class="loud">{escape(warning)}</p>\n' for warning in found.warnings())
    text += (f"<p>Methods with code that were reached: <strong>{len(found.reached)} of {found.with_code}</strong> "
             f"({share}), in {found.classes_reached} of {counted(found.classes, 'class', 'classes')} with code.</p>\n"
             f'<progress max="{max(found.with_code, 1)}" value="{len(found.reached)}" aria-label="methods reached">'
             f"{share}</progress>\n")
    text += _table("Components that run", ["kind", "class", "what of it runs", "methods reached"], [
        [one.component.kind, one.component.class_name,
         (", ".join(one.runs) or "nothing") + ("" if one.alive else "; it does not come to life"),
         f"{one.reached} of {one.with_code}"]
        for one in found.components], 1)
    if found.handed:
        text += _table("Callbacks on objects that were handed to the library", ["callback", "methods"],
                       [[name, str(len(places))] for name, places in sorted(found.handed.items())], 1)
    text += _met("Sources that were met", found.sources, ["category", "row of the lists"])
    text += _met("Sinks that were met", found.sinks, ["category", "row of the lists"])
    arrivals = [[f"{source} -> {sink}", "declared" if (source, sink) in found.declared else "not declared",
                 str(len(places))] for (source, sink), places in sorted(found.arrivals.items())]
    text += (_table("Flows that may arrive", ["flow", "declaration", "places"], arrivals, 1) if arrivals
             else "<p><strong>Flows that may arrive</strong>: none</p>\n")
    unknown = [[cause, str(len(found.unknown[cause]))] for cause in CAUSES if cause in found.unknown]
    if unknown:
        text += _table("Where the analysis could not go on", ["cause", "places"], unknown, 1)
    return _section("coverage", "What was reached", text)


def _answer(one: Report) -> str:
    said = advice.OUTCOMES[one.outcome]
    text = (f'<div class="answer {one.outcome.value}" role="status"><strong>{SIGNS[one.outcome]} '
            f"{escape(one.first_line)}</strong><p>{escape(said.says)}</p>"
            f"<p>{escape(said.developer)} {escape(said.reviewer)}</p></div>\n")
    if one.outcome is Outcome.REFUSED and (mend := advice.refusal(one)) is not None:
        text += (f'<dl class="next"><dt>What is wrong</dt><dd>{escape(mend.wrong)}</dd>'
                 f"<dt>What to do</dt><dd>{escape(mend.do)}</dd></dl>\n")
    return text


def html(subject: Subject) -> str:
    """The whole page. All that the app names is escaped."""
    one = subject.found.report
    style = STYLE.read_text(encoding="utf-8")
    allowed = base64.b64encode(hashlib.sha256(style.encode()).digest()).decode()
    body = "".join([_missing(subject.found), _causes(subject.found), _findings(subject.found), _rows(subject.found)])
    body = _coverage(subject) + body if one.outcome is not Outcome.REFUSED else body
    body += _section("report", "The report as vet prints it", _pre(escape(str(one)), "the report"))
    links = "".join(f'<li><a href="#{name}">{title}</a></li>'
                    for name, title in re.findall(r'<h2 id="([a-z-]+)-title">(.*?)</h2>', body))
    faults = "".join(f'<p class="loud">Not shown: {escape(fault)}</p>\n' for fault in subject.found.faults)
    digest = (f'<p class="dim">Digest of the files: <span class="name">{subject.digest}</span></p>'
              if subject.digest else "")
    return f"""<!DOCTYPE html>
<html lang="en">
<head>
<meta charset="utf-8">
<meta name="viewport" content="width=device-width, initial-scale=1">
<meta http-equiv="Content-Security-Policy" content="default-src 'none'; style-src 'sha256-{allowed}'; \
base-uri 'none'; form-action 'none'">
<meta name="referrer" content="no-referrer">
<title>{escape(one.first_line)}: {escape(subject.package)}</title>
<style>{style}</style>
</head>
<body>
<a class="skip" href="#main">To the content</a>
<header>
<h1>Report on <span class="name">{escape(subject.package)}</span></h1>
{_answer(one)}<p class="dim">{escape(KEPT)}</p>
{digest}
<nav aria-label="On this page"><ul>{links}</ul></nav>
</header>
<main id="main">
{faults}{body}</main>
</body>
</html>
"""


def subject_of(words: argparse.Namespace) -> Subject:
    """Asks vet, and counts what was reached by a certificate that is given or made.

    Raises as `report_of` does, and `NoCertificate` where the one that is given can't be read.
    """
    if words.report or words.certificate:
        one, folder = report_of(words)
        reached, why = _reached(folder, words.certificate) if words.certificate else (
            None, "no certificate was given with the report (--certificate CERT).")
    else:
        folder = report.app_folder(words.folder)
        one, reached, why = _certified(folder, words.workers)
    stories, faults = ways_of(words, folder, one)
    found = explain(one, folder, stories)
    found.faults += faults
    try:
        manifest = forms.manifest_of(folder)
        package, digest = manifest.package, forms.digest_of(folder, manifest.dex_files).hex()
    except FormFault:
        package, digest = in_quotes(folder.resolve().name), ""
    return Subject(found, reached, why, package, digest)


def _reached(folder: Path, path: str) -> tuple[Coverage | None, str]:
    """What was reached by the certificate at this path, or why that is not known. Raises `NoCertificate`."""
    try:
        return coverage(folder, Certificate.read(path)), ""
    except CertificateFault as fault:
        return None, f"the certificate is refused: {fault.reason}."
    except (CoverageFault, DexFault, FormFault) as fault:
        return None, str(fault)


def _certified(folder: Path, workers: int) -> tuple[Report, Coverage | None, str]:
    """Has the app judged and a certificate made, in a folder of its own that is taken away again."""
    with tempfile.TemporaryDirectory(prefix="vet_page_") as place:
        path = Path(place) / "app.cert"
        try:
            one = report.certify(folder, path)
        except NoReport as fault:
            if fault.status != 6:
                raise
            return report.check(folder, workers), None, "there was no room for a certificate."
        if not path.exists():
            return one, None, "vet made no certificate, since the app is refused or more follows than the lists allow."
        return (one, *_reached(folder, str(path)))


def main(arguments: list[str] | None = None) -> int:
    """The command; the exit status is that of vet."""
    parser = Words(
        prog="tools/page", description="Writes one HTML page about an app: the answer of vet, what was reached, each "
        "finding and cause with its code, and rows for lists.toml. The page needs nothing else and asks for nothing.",
        epilog=f"Example: tools/page examples/device_id_posted -o app.html. {STATUSES}")
    add_folder(parser)
    add_ways(parser)
    parser.add_argument("-o", "--output", metavar="FILE", required=True, help="the page")
    parser.add_argument("--certificate", metavar="CERT", help="count what was reached by this certificate; without it "
                        "and without --report vet makes one")
    words = parser.parse_args(arguments)
    try:
        subject = subject_of(words)
        write(Path(words.output), html(subject), Path(words.folder), (words.certificate, words.report))
    except (ReportFault, NoReport, NoCertificate) as fault:
        return refuse("tools/page", fault)
    print(f"{subject.found.report.first_line}; the page is in {in_quotes(words.output)}", file=sys.stderr)
    return subject.found.report.outcome.status
