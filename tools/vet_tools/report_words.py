"""The lines of a report by kind, with what a reviewer does about each kind. Nothing here judges an app."""

from __future__ import annotations

from dataclasses import dataclass

from vet_tools import advice
from vet_tools.report import Outcome


@dataclass(frozen=True)
class Part:
    """Lines of one kind in a report: what they are called, what is done about them, and the lines."""

    name: str
    advice: str
    lines: tuple[bytes, ...]


def outcome_words(word: str) -> str:
    """What an outcome says and what the reviewer does next; empty for a word that is none."""
    said = next((advice.OUTCOMES[one] for one in Outcome if one.value == word), None)
    return f"{said.says} {said.reviewer}" if said else ""


def _kind(line: bytes) -> tuple[str, str]:
    for kind, one in advice.CAUSES.items():
        if line.startswith(kind.value.encode() + b": "):
            return kind.value, f"{one.says} {one.reviewer}"
    return ("flow", f"{advice.FINDING.says} {advice.FINDING.reviewer}") if b" -> " in line else ("line", "")


def parts_of(report: bytes) -> tuple[bytes, list[Part]]:
    """The first line of a report, and the other ones by kind, each kind and each line in the report's order."""
    first, *rest = report.split(b"\n")
    kinds: dict[tuple[str, str], list[bytes]] = {}
    for line in rest:
        if line:
            kinds.setdefault(_kind(line), []).append(line)
    return first, [Part(name, words, tuple(lines)) for (name, words), lines in kinds.items()]
