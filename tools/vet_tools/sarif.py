"""`tools/sarif`: a report as SARIF 2.1.0 (OASIS, "Static Analysis Results Interchange Format"), for other tools.

A finding is a result of the kind `fail`, a cause one of the kind `open`: there was not enough to decide. A result
stands at the source line where the DEX file has one, and else at the bytes of its instruction in the DEX file.
"""
from __future__ import annotations

import hashlib
import json
import sys
from pathlib import Path
from typing import Any
from urllib.parse import quote

from vet_tools import advice
from vet_tools.advice import Advice
from vet_tools.command import STATUSES, Words, add_folder, add_ways, refuse, report_of, ways_of, write
from vet_tools.explanation import Explained, Explanation, explain
from vet_tools.java_names import java_method
from vet_tools.report import Cause, CauseKind, Finding, NoReport, Outcome, Place, ReportFault
from vet_tools.way import Step

SCHEMA = "https://docs.oasis-open.org/sarif/sarif/v2.1.0/errata01/os/schemas/sarif-schema-2.1.0.json"
FLOW = "undeclared-flow"
FILES = {CauseKind.PROVIDER: "manifest.toml", CauseKind.LAYOUT_CLASS: "layouts.toml", CauseKind.TOO_LARGE: "lists.toml",
         CauseKind.HIDDEN: "classes.dex", CauseKind.INTERFACE_CODE: "classes.dex", CauseKind.PLATFORM_CLASS: "classes.dex",
         CauseKind.UNLISTED_CLASS: "lists.toml", CauseKind.CLICK: "classes.dex", CauseKind.NAMED_CLASS: "manifest.toml"}

Json = dict[str, Any]


def rule_id(line: Cause | Finding) -> str:
    """The rule of a line: `undeclared-flow`, or the kind of the cause with a hyphen."""
    return FLOW if isinstance(line, Finding) else line.kind.value.replace(" ", "-")


def message(text: str) -> Json:
    """A message: braces stand doubled, and brackets that could be a link are escaped (SARIF 2.1.0, 3.11.5, 3.11.6)."""
    text = text.replace("{", "{{").replace("}", "}}")
    if "]" in text:
        text = text.replace("[", "\\[").replace("]", "\\]")
    return {"text": text}


def _rule(name: str, one: Advice) -> Json:
    level = "warning" if name == FLOW else "none"
    return {"id": name, "shortDescription": message(one.says),
            "help": message(f"Developer: {one.developer} Reviewer: {one.reviewer}"),
            "defaultConfiguration": {"level": level}}


RULES = [_rule(FLOW, advice.FINDING),
         *(_rule(kind.value.replace(" ", "-"), one) for kind, one in advice.CAUSES.items())]
RULE_IDS = [rule["id"] for rule in RULES]


def _source_uri(class_name: str, file: str) -> str:
    """Where a source file is due by its class's package; parts that would lead elsewhere are left out."""
    package = class_name[1:-1].split("/")[:-1]
    parts = [] if any(part in ("", ".", "..") for part in package) else package
    name = file.rsplit("/", 1)[-1]
    return "/".join(quote(part, safe="") for part in [*parts, name if name not in ("", ".", "..") else "unnamed"])


def _logical(place: Place) -> Json:
    return {"fullyQualifiedName": place.method, "kind": "function"}


def _dex_location(one: Explained | Step) -> Json | None:
    """The bytes of the instruction in the DEX file."""
    if one.method is None or one.instruction is None:
        return None
    region = {"byteOffset": one.method.offset_of(one.instruction.pc), "byteLength": one.instruction.size,
              "snippet": {"text": one.instruction.text}}
    return {"artifactLocation": {"uri": quote(one.method.dex, safe=""), "uriBaseId": "APP"}, "region": region}


def _source_location(one: Explained | Step) -> Json | None:
    """The source line, where the DEX file has it; a line of zero is none."""
    line = one.source_line
    if line is None or one.method is None or not line.file or line.line < 1:
        return None
    uri = _source_uri(one.method.class_name, line.file)
    return {"artifactLocation": {"uri": uri, "uriBaseId": "SOURCES"}, "region": {"startLine": line.line}}


def _locations(one: Explained) -> tuple[list[Json], list[Json]]:
    """Where a line stands, and related places."""
    if one.place is None:
        kind = one.line.kind if isinstance(one.line, Cause) else CauseKind.TOO_LARGE
        where: Json = {"physicalLocation": {"artifactLocation": {"uri": FILES[kind], "uriBaseId": "APP"}}}
        if kind is not CauseKind.TOO_LARGE and isinstance(one.line, Cause):
            where["logicalLocations"] = [{"fullyQualifiedName": one.line.subject, "kind": "type"}]
        return [where], []
    source, code = _source_location(one), _dex_location(one)
    where = {"logicalLocations": [_logical(one.place)]}
    first = source or code
    if first:
        where["physicalLocation"] = first
    related = {"physicalLocation": code, "message": message("the instruction in the DEX file")}
    return [where], [related] if source and code else []


def _flow_location(number: int, step: Step) -> Json:
    """One step of a way; those that are not of the value itself are less important."""
    where: Json = {"logicalLocations": [_logical(step.place)], "message": message(step.says)}
    if physical := _source_location(step) or _dex_location(step):
        where["physicalLocation"] = physical
    return {"location": where, "executionOrder": number, "importance": "essential" if step.essential else "important"}


def _code_flows(one: Explained) -> list[Json]:
    """The way from source to sink as one thread flow, where one is known."""
    if not one.way:
        return []
    return [{"threadFlows": [{"locations": [_flow_location(number, step) for number, step in enumerate(one.way, 1)]}]}]


def _result(one: Explained) -> Json:
    name, line = rule_id(one.line), str(one.line)
    said = [line, *(f"calls {java_method(ref)}" for ref in [one.called] if ref), *one.notes]
    locations, related = _locations(one)
    found: Json = {"ruleId": name, "ruleIndex": RULE_IDS.index(name), "message": message("; ".join(said)),
                   "kind": "fail" if name == FLOW else "open", "level": "warning" if name == FLOW else "none",
                   "locations": locations,
                   "partialFingerprints": {"vetLine/v1": hashlib.sha256(line.encode()).hexdigest()}}
    if related:
        found["relatedLocations"] = related
    if flows := _code_flows(one):
        found["codeFlows"] = flows
    return found


def _invocation(found: Explanation) -> Json:
    one = found.report
    text: Json = {"executionSuccessful": one.outcome is not Outcome.REFUSED, "exitCode": one.outcome.status}
    said = [{"level": "warning", "message": message(fault)} for fault in found.faults]
    if one.outcome is Outcome.REFUSED:
        mend = advice.refusal(one)
        more = f". {mend.wrong} {mend.do}" if mend else ""
        said.append({"level": "error", "message": message(one.first_line + more)})
    if said:
        text["toolExecutionNotifications"] = said
    return text


def document(found: Explanation) -> Json:
    """The report as a SARIF document."""
    run = {"tool": {"driver": {"name": "vet", "rules": RULES}}, "invocations": [_invocation(found)],
           "originalUriBaseIds": {"APP": {"description": message("the folder of the unpacked app")},
                                  "SOURCES": {"description": message("the folder of the app's sources")}},
           "columnKind": "utf16CodeUnits",
           "results": [_result(one) for one in [*found.causes, *found.findings]],
           "properties": {"report": str(found.report)}}
    return {"$schema": SCHEMA, "version": "2.1.0", "runs": [run]}


def main(arguments: list[str] | None = None) -> int:
    """The command; the exit status is that of vet."""
    parser = Words(
        prog="tools/sarif", description="Writes the report of vet as SARIF 2.1.0, for editors and code hosts: findings "
        "with the kind fail, causes with the kind open.",
        epilog=f"Example: tools/sarif examples/device_id_posted -o report.sarif. {STATUSES}")
    add_folder(parser)
    add_ways(parser)
    parser.add_argument("-o", "--output", metavar="FILE", help="the file; without it the standard output")
    words = parser.parse_args(arguments)
    try:
        one, folder = report_of(words)
        stories, faults = ways_of(words, folder, one)
        found = explain(one, folder, stories)
        found.faults += faults
        text = json.dumps(document(found), indent=2) + "\n"
        if words.output:
            write(Path(words.output), text, folder, (words.report,))
        else:
            sys.stdout.write(text)
    except (ReportFault, NoReport) as fault:
        return refuse("tools/sarif", fault)
    return one.outcome.status
