"""A report with the code behind its lines: what `explain`, `page` and `sarif` show.

Each line of the report gets the instruction at its place, the method that is called, and the source line where the DEX
file has one. Lines without a summary are put together by missing class and method. Nothing here judges.
"""
from __future__ import annotations

from dataclasses import dataclass, field, replace
from pathlib import Path
from typing import Sequence

from vet_tools import forms
from vet_tools.dex_code import DexCode, DexFault, Instruction, Method, MethodRef, SourceLine
from vet_tools.forms import FormFault, Lists
from vet_tools.java_names import java_method
from vet_tools.report import Cause, CauseKind, Finding, Outcome, Place, Report
from vet_tools.shown import printed
from vet_tools.story import Story
from vet_tools.way import Step, way_of
from vet_tools.way_words import Names

OBJECT = "Ljava/lang/Object;"


@dataclass(frozen=True)
class Explained:
    """One line of the report. `notes` say what there is to say besides; `way` is a way to the sink, if one is known."""
    line: Cause | Finding
    method: Method | None = None
    instruction: Instruction | None = None
    source_line: SourceLine | None = None
    notes: tuple[str, ...] = ()
    way: tuple[Step, ...] = ()

    @property
    def called(self) -> MethodRef | None:
        """The method that the instruction calls."""
        return self.instruction.called if self.instruction else None

    @property
    def place(self) -> Place | None:
        """The place of the line, where it has one."""
        return self.line.place


@dataclass
class MissingMethod:
    """A library method of which the lists say nothing, and the lines that come to it."""
    ref: MethodRef
    lines: list[Explained] = field(default_factory=list)


@dataclass
class MissingClass:
    """A library class with missing methods; `others` are further classes that the object may be of."""
    name: str
    listed: bool
    others: tuple[str, ...]
    methods: dict[str, MissingMethod] = field(default_factory=dict)

    def java_method(self, method: MissingMethod) -> str:
        """A missing method of the class, as Java writes it; a call may have named it of an app's class below."""
        return java_method(replace(method.ref, class_name=self.name))

    @property
    def count(self) -> int:
        """How many lines of the report stand behind the class."""
        return sum(len(one.lines) for one in self.methods.values())


@dataclass
class Explanation:
    """A report and what stands behind it. `faults` are sentences about files that could not be looked into."""
    report: Report
    findings: list[Explained] = field(default_factory=list)
    causes: list[Explained] = field(default_factory=list)
    missing: list[MissingClass] = field(default_factory=list)
    faults: list[str] = field(default_factory=list)
    object_listed: bool = True

    def of_kind(self, kind: CauseKind) -> list[Explained]:
        """The explained causes of one kind."""
        return [one for one in self.causes if isinstance(one.line, Cause) and one.line.kind is kind]

    def unknown(self) -> list[Explained]:
        """The lines without a summary whose call could not be looked at, so that they name no missing method."""
        grouped = {id(line) for one in self.missing for method in one.methods.values() for line in method.lines}
        return [one for one in self.of_kind(CauseKind.NO_SUMMARY) if id(one) not in grouped]


def explain(report: Report, folder: Path, stories: Sequence[Story] = ()) -> Explanation:
    """Puts behind each line of the report what the app's files have there, and behind each finding the way that its
    story tells, where there are stories."""
    found = Explanation(report)
    if report.outcome in (Outcome.CLEAR, Outcome.REFUSED):
        return found
    placed = bool(report.findings) or any(cause.place is not None for cause in report.causes)
    code = _code(folder, found.faults) if placed else None
    lists = _lists(folder, found.faults) if placed else None
    found.object_listed = lists is None or OBJECT in lists.parents
    names = _names(folder, lists) if stories else Names()
    for number, finding in enumerate(report.findings):
        one = _explained(finding, code, lists, ())
        if code is not None and number < len(stories):
            one = replace(one, way=way_of(stories[number], finding, code, names))
        found.findings.append(one)
    for cause in report.causes:
        found.causes.append(_explained(cause, code, lists, _where(cause, folder)))
    if code is not None:
        found.missing = _missing(found.of_kind(CauseKind.NO_SUMMARY), code, lists)
    return found


def _code(folder: Path, faults: list[str]) -> DexCode | None:
    try:
        return DexCode.read(forms.dex_paths(folder, forms.manifest_of(folder).dex_files))
    except (DexFault, FormFault) as fault:
        faults.append(str(fault))
        return None


def _lists(folder: Path, faults: list[str]) -> Lists | None:
    try:
        return forms.lists_of(folder)
    except FormFault as fault:
        faults.append(str(fault))
        return None


def _names(folder: Path, lists: Lists | None) -> Names:
    """What the forms call the components and the shared objects, as far as they can be read."""
    try:
        components = forms.manifest_of(folder).components
    except FormFault:
        components = ()
    return Names(components, lists.shared if lists else ())


def _where(cause: Cause, folder: Path) -> tuple[str, ...]:
    """Where the forms name the class of a cause that has no place."""
    if cause.kind is not CauseKind.LAYOUT_CLASS:
        return ()
    try:
        names = forms.layouts_with(folder, cause.subject)
    except FormFault:
        return ()
    return (f"in layouts.toml, as an element of {', '.join(names)}",) if names else ()


def _explained(line: Cause | Finding, code: DexCode | None, lists: Lists | None, notes: tuple[str, ...]) -> Explained:
    if line.place is None or code is None:
        return Explained(line, notes=notes)
    method = code.method(line.place.method)
    if method is None:
        return Explained(line, notes=("the DEX files have no such method, or more than one that is printed so",))
    if method.native:
        return Explained(line, method, notes=("the method is native: it has no code to show, and the system calls it",))
    instruction = method.at(line.place.pc)
    if instruction is None:
        return Explained(line, method, notes=("androguard reads no instruction at this address",))
    if isinstance(line, Finding):
        notes += _sends(line, instruction, code, lists)
    elif line.kind is CauseKind.NATIVE:
        notes += _native(instruction, code)
    return Explained(line, method, instruction, method.line_at(line.place.pc), notes)


def _native(instruction: Instruction, code: DexCode) -> tuple[str, ...]:
    """Which native methods an instruction may enter, as far as its text tells."""
    ref = instruction.called
    if ref is None:
        return ("a native initialiser of the class that it names may run before it",)
    if code.has_body(ref.class_name, ref) and not any(
            method.native for one in code.upward(ref.class_name) for method in one.methods
            if (method.name, method.descriptor) == (ref.name, ref.descriptor)):
        return ("the object's class decides which body runs, or a native initialiser may run before it",)
    return ()


def _sends(line: Finding, instruction: Instruction, code: DexCode, lists: Lists | None) -> tuple[str, ...]:
    """Which arguments of the call go to the sink, by the row of the lists that counts for the class that it names."""
    ref = instruction.called
    if ref is None or lists is None:
        return ()
    row = lists.row_for(code.library_classes(ref.class_name), ref)
    if row is None or printed(row.sink.encode()) != line.sink:
        return ()
    words = [_position(ref, position, instruction.registers) for position in row.positions]
    return (f"what goes to {line.sink}: {', '.join(words)}",) if words else ()


def _position(ref: MethodRef, position: int, registers: tuple[int, ...]) -> str:
    """A position of a call in words, with the register that holds it."""
    first = 0 if ref.static else 1
    word = "the receiver" if position < first else f"argument {position - first + 1}"
    at = position if position < first else first + sum(
        2 if one in ("J", "D") else 1 for one in ref.parameters[:position - first])
    return f"{word} (v{registers[at]})" if at < len(registers) else word


def _library_names(instruction: Instruction, ref: MethodRef, code: DexCode, lists: Lists | None) -> tuple[str, ...]:
    """The library classes that a call without a summary may have come to, at least the one that it names."""
    def has_summary(found: list[str]) -> bool:
        return lists is not None and lists.has_summary(found, ref)
    return tuple(code.unsummarised(instruction, has_summary)) or (ref.class_name,)


def _missing(lines: list[Explained], code: DexCode, lists: Lists | None) -> list[MissingClass]:
    """The lines put together by missing class and method: the class with the most lines first, then by name."""
    groups: dict[tuple[str, ...], MissingClass] = {}
    for line in lines:
        if line.instruction is None or line.instruction.called is None:
            continue
        ref = line.instruction.called
        key = _library_names(line.instruction, ref, code, lists)
        if key not in groups:
            groups[key] = MissingClass(key[0], lists is not None and key[0] in lists.parents, key[1:])
        text = f"{ref.name}{ref.descriptor}{'s' if ref.static else ''}"
        groups[key].methods.setdefault(text, MissingMethod(ref)).lines.append(line)
    for group in groups.values():
        order = sorted(group.methods.items(), key=lambda item: (-len(item[1].lines), item[0]))
        group.methods = dict(order)
    return sorted(groups.values(), key=lambda group: (-group.count, group.name, group.others))
