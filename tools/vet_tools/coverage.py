"""`tools/coverage`: how much of an app the analysis came to, by the rows of a certificate.

The certificate must be of these very files (its digest says so). That its table is closed is not looked at here:
`vet recheck DIR CERT` does that.
"""
from __future__ import annotations

import sys
from dataclasses import dataclass, field
from pathlib import Path

from vet_tools import forms, report
from vet_tools.certificate import (Certificate, CertificateFault, ContextKind, Flat, Kind, NoCertificate, Node,
                                   node_of)
from vet_tools.command import NO_COMMAND, Words, refuse
from vet_tools.dex_code import DexCode, DexFault, Method
from vet_tools.forms import Component, FormFault, Lists, Manifest
from vet_tools.report import NO_ANSWER, ReportFault
from vet_tools.shown import counted

# The methods of the life of each kind of component, in the order in which certificates number them (docs/MACHINE.md).
EVENTS: dict[str, tuple[str, ...]] = {
    "application": ("<init>", "onCreate"),
    "activity": ("<init>", "onCreate", "onStart", "onResume", "onStop", "onPause", "onResume", "onStop", "onRestart",
                 "onStart", "onDestroy", "onDestroy"),
    "service": ("<init>", "onCreate", "onStartCommand", "onBind", "onUnbind", "onRebind", "onDestroy"),
    "receiver": ("<init>", "onReceive"),
}
CAUSES = ("no summary", "native", "reflective")
LITTLE = 0.1


class CoverageFault(Exception):
    """The certificate does not go with the app; the text is one sentence."""


@dataclass
class ComponentCoverage:
    """A component: whether it comes to life, what of it the system runs, and how many of its class's methods."""
    component: Component
    alive: bool = False
    runs: dict[str, None] = field(default_factory=dict)
    reached: int = 0
    with_code: int = 0


Places = set[tuple[int, int]]


@dataclass
class Coverage:
    """What was reached. Sources and sinks are by category and row, arrivals by their pair, each with its places."""
    components: list[ComponentCoverage]
    with_code: int
    rows: int
    classes: int
    reached: set[int] = field(default_factory=set)
    classes_reached: int = 0
    sources: dict[tuple[str, str], Places] = field(default_factory=dict)
    sinks: dict[tuple[str, str], Places] = field(default_factory=dict)
    arrivals: dict[tuple[str, str], Places] = field(default_factory=dict)
    unknown: dict[str, Places] = field(default_factory=dict)
    handed: dict[str, Places] = field(default_factory=dict)
    declared: tuple[tuple[str, str], ...] = ()
    unreached: list[Method] = field(default_factory=list)

    def warnings(self) -> list[str]:
        """What is to be said loudly: where nothing, or next to nothing, was reached."""
        found: list[str] = []
        if not self.components:
            found.append("THE MANIFEST NAMES NO COMPONENT THAT RUNS: nothing of the app was looked at.")
        if not self.reached:
            found.append(f"NOTHING WAS REACHED: of {counted(self.with_code, 'method')} with code none is run, so the "
                         "answer says nothing of what they do.")
        elif len(self.reached) < LITTLE * self.with_code:
            found.append(f"ONLY {len(self.reached)} OF {self.with_code} METHODS WERE REACHED: what the others do was "
                         "not looked at, since nothing was seen to lead to them.")
        idle = [one.component for one in self.components if not one.runs]
        found += [f"NOTHING OF {one.kind.upper()} {one.class_name} IS RUN." for one in idle] if self.reached else []
        if self.reached and not self.sources:
            found.append("NO SOURCE WAS MET: no listed personal data is taken where the analysis came to.")
        if self.reached and not self.sinks:
            found.append("NO SINK WAS MET: nothing is sent to a listed place where the analysis came to.")
        return found


class _Reading:
    """Reads the rows of one certificate over one app."""

    def __init__(self, code: DexCode, manifest: Manifest, clicks: tuple[str, ...], lists: Lists, rows: int) -> None:
        self.code, self.manifest, self.clicks, self.lists = code, manifest, clicks, lists
        with_code = [method for method in code.numbered if method.code is not None]
        self.found = Coverage([ComponentCoverage(one) for one in manifest.components], len(with_code), rows,
                              len({method.class_name for method in with_code}))

    def row(self, row: Flat) -> None:
        """Takes one row in. Raises `IndexError` where it names what the app or the lists do not have."""
        kind = row[0]
        if kind == Kind.REACHED:
            self.reached(node_of(row[1:])[0])
        elif kind == Kind.LIVE and row[2]:
            self.found.components[row[1]].alive = True
        elif kind == Kind.ARRIVE:
            node, _ = node_of(row[3:])
            pair = (self.lists.categories[row[1]], self.lists.categories[row[2]])
            self.found.arrivals.setdefault(pair, set()).add((node.method, node.pc))
        elif kind == Kind.UNKNOWN:
            node, rest = node_of(row[1:])
            self.method(node)
            self.found.unknown.setdefault(CAUSES[rest[0] - 1], set()).add((node.method, node.pc))
        elif kind == Kind.USES:
            self.used(*node_of(row[1:]))

    def method(self, node: Node) -> Method:
        return self.code.numbered[node.method]

    def reached(self, node: Node) -> None:
        method = self.method(node)
        self.found.reached.add(node.method)
        kind, first, second = node.context[0], node.context[1], node.context[2]
        if kind == ContextKind.EVENT:
            one = self.found.components[first]
            one.runs.setdefault(EVENTS[one.component.kind][second])
        elif kind == ContextKind.CALLBACK:
            self.found.components[first].runs.setdefault(f"{method.name} (callback)")
            self.called_back(second, node)
        elif kind == ContextKind.CLICK:
            self.found.components[first].runs.setdefault(f"{self.clicks[second]} (click)")
        elif kind == ContextKind.HANDED:
            self.found.handed.setdefault(str(self.lists.callbacks[first]), set()).add((node.method, 0))
            self.called_back(first, node)
        elif kind == ContextKind.INITIALISER:
            self.found.components[first].runs.setdefault("<clinit>")

    def called_back(self, number: int, node: Node) -> None:
        """A callback row that gives personal data is a source, where its body begins."""
        callback = self.lists.callbacks[number]
        for _, category in callback.sources:
            self.found.sources.setdefault((category, str(callback)), set()).add((node.method, 0))

    def used(self, node: Node, use: Flat) -> None:
        self.method(node)
        if use[0] != 0:
            return
        row = self.lists.rows[use[1]]
        for category, found in ((row.source, self.found.sources), (row.sink, self.found.sinks)):
            if category:
                found.setdefault((category, str(row)), set()).add((node.method, node.pc))

    def ended(self) -> Coverage:
        """Counts what the rows name."""
        found, methods = self.found, self.code.numbered
        found.classes_reached = len({methods[number].class_name for number in found.reached})
        found.unreached = [method for number, method in enumerate(methods)
                           if method.code is not None and number not in found.reached]
        by_class = {one.component.class_name: one for one in found.components}
        for number, method in enumerate(methods):
            one = by_class.get(method.class_name)
            if one is not None and method.code is not None:
                one.with_code += 1
                one.reached += number in found.reached
        return found


def coverage(folder: Path, certificate: Certificate) -> Coverage:
    """What the rows of this certificate reached of this app.

    Raises `CoverageFault` where it is of other files or names what these do not have, `CertificateFault`, `DexFault`
    and `FormFault`.
    """
    manifest = forms.manifest_of(folder)
    digest = forms.digest_of(folder, manifest.dex_files)
    if digest != certificate.digest:
        raise CoverageFault(f"The certificate is about other files: its digest is {certificate.digest.hex()} and that "
                            f"of these files {digest.hex()}; have it made anew by vet certify.")
    code = DexCode.read(forms.dex_paths(folder, manifest.dex_files))
    reading = _Reading(code, manifest, forms.clicks_of(folder), forms.lists_of(folder), certificate.count)
    try:
        for row in certificate.rows():
            reading.row(row)
    except (IndexError, KeyError):
        raise CoverageFault("The certificate names what the app or the lists do not have; vet recheck says "
                            "which row it is, and vet certify makes a new one.") from None
    found = reading.ended()
    found.declared = forms.declared_of(folder)
    return found


def percent(part: int, whole: int) -> str:
    """`12.3 %`, rounded down, so that 100 % is said of all alone."""
    return f"{part * 1000 // whole / 10:.1f} %" if whole else "0.0 %"


def _met(title: str, found: dict[tuple[str, str], Places], by: str) -> list[str]:
    lines = [f"{title}: {counted(len(found), 'row') if found else 'none'}"]
    return lines + [f"  {first} {by} {second}, at {counted(len(places), 'place')}"
                    for (first, second), places in sorted(found.items())]


def component_text(one: ComponentCoverage) -> str:
    """What of a component is run, in one line."""
    life = "comes to life" if one.alive else "does not come to life"
    runs = f"runs {', '.join(one.runs)}" if one.runs else "nothing of it is run"
    return (f"{one.component.kind} {one.component.class_name}: {life}; {runs}; "
            f"{one.reached} of {counted(one.with_code, 'method')} of its class reached")


def text(found: Coverage) -> str:
    """The coverage in visible ASCII, warnings first, ending with a line feed."""
    lines = [f"*** {warning} ***" for warning in found.warnings()]
    lines += [""] if lines else []
    lines += [f"Methods with code that were reached: {len(found.reached)} of {found.with_code} "
              f"({percent(len(found.reached), found.with_code)})",
              f"Classes with code that were reached: {found.classes_reached} of {found.classes}", "",
              f"Components that run: {len(found.components)}"]
    lines += [f"  {component_text(one)}" for one in found.components]
    lines += ["", f"Callbacks on objects that were handed to the library: {len(found.handed) or 'none'}"]
    lines += [f"  {name}, of {counted(len(places), 'method')}" for name, places in sorted(found.handed.items())]
    lines += ["", *_met("Sources that were met", found.sources, "by"), "",
              *_met("Sinks that were met", found.sinks, "by"), ""]
    lines += [f"Flows that may arrive: {counted(len(found.arrivals), 'pair') if found.arrivals else 'none'}"]
    for pair, places in sorted(found.arrivals.items()):
        said = "declared" if pair in found.declared else "not declared"
        lines.append(f"  {pair[0]} -> {pair[1]}, at {counted(len(places), 'place')} ({said})")
    if found.unknown:
        lines += ["", "Where the analysis could not go on:"]
        lines += [f"  {cause}: {counted(len(found.unknown[cause]), 'place')}"
                  for cause in CAUSES if cause in found.unknown]
    lines += ["", f"This is what the certificate says, in {counted(found.rows, 'row')}. Whether they may be believed, "
              "vet recheck DIR CERT says."]
    return "\n".join(lines) + "\n"


def main(arguments: list[str] | None = None) -> int:
    """The command; 0 where the coverage was printed, else 70."""
    parser = Words(
        prog="tools/coverage", description="Says what of an app the analysis came to, by the certificate that vet "
        "certify makes: the components that come to life, the methods reached of all with code, the sources and sinks "
        "that were met. Where nothing was reached it says so loudly.",
        epilog="Example: ./vet certify examples/other_box other_box.cert; tools/coverage examples/other_box "
        f"other_box.cert. The exit status is 0, {NO_COMMAND} where these words are no command, and {NO_ANSWER} where "
        "there is nothing to count.")
    parser.add_argument("folder", metavar="DIR", help="the folder of an unpacked app")
    parser.add_argument("certificate", metavar="CERT", help="the certificate of that app")
    parser.add_argument("--unreached", action="store_true", help="print the methods with code that were not reached, "
                        "one a line, and nothing else")
    words = parser.parse_args(arguments)
    try:
        found = coverage(report.app_folder(words.folder), Certificate.read(words.certificate))
    except CertificateFault as fault:
        return refuse("tools/coverage", ReportFault(f"certificate refused: {fault.reason}; docs/REPORT.md says what "
                                                    "to do (\"A refused certificate\")."))
    except (ReportFault, NoCertificate, CoverageFault, DexFault, FormFault) as fault:
        return refuse("tools/coverage", fault)
    sys.stdout.write("".join(f"{method}\n" for method in found.unreached) if words.unreached else text(found))
    return 0
