"""Looks over stories by the pages of rules and formats alone, apart from the program and from what the tools read."""
from __future__ import annotations

import re

from vet_tools.certificate import Kind

LINE = re.compile(r"([1-9][0-9]*) (?:start|rule ([1-9][0-9]?) from ((?:[1-9][0-9]* )*[1-9][0-9]*)): ((?:[0-9a-f]{2})+)")
ARRIVE, LIVE = 18, 14
MOST = 4
# The kinds of rows, in hexadecimal, of which each story by the second set has one and none by the first does
# (docs/FORMATS.md, "Stories").
SECOND = (f"{Kind.LABEL:02x}", f"{Kind.HOLDS:02x}")
# From rows of which kinds, in the order in which each rule names them, rows of which kinds follow (docs/RULES.md):
# `PREMISES: CONCLUSIONS`, several behind semicolons.
_ENTERS = "calls called_by reached unknown"
_BEGINS = "reached points taint unknown"
SHAPES = {
    1: "reached: reached", 2: "points: points; taint: taint", 3: "points: points; taint: taint", 4: "taint: taint",
    5: "reached: points; taint: taint", 6: "points: cell; taint: taint", 7: "points cell: points; taint: taint",
    8: "points points: cell; points taint: effect",
    9: "reached static_points: points; reached static_taint: taint; reached: taint",
    10: "points: static_points; taint: static_taint", 11: "points: points exit_points; taint: taint exit_taint",
    12: "points: exit_points; taint: exit_taint", 13: "cell: back", 14: "effect back: effect",
    15: "effect points: taint", 16: "effect: method_effect", 17: "method_effect called_by: effect",
    18: "effect static_points: static_taint", 19: "effect handed: handed_taint", 20: "method_effect: comp_taint",
    21: "method_effect live: comp_taint", 22: f"reached: {_ENTERS}", 23: f"points: {_ENTERS} points",
    24: "calls points: points; calls taint: taint", 25: "exit_points called_by: points; exit_taint called_by: taint",
    26: "exit_points called_by: points exit_points; exit_taint called_by: taint exit_taint",
    27: "reached: uses unknown; points: uses unknown", 28: f"reached: {_ENTERS}",
    29: "method_effect called_by points: taint", 30: "uses points: handed; uses points taint: handed_taint",
    31: "uses taint: arrive", 32: "uses points: points; uses taint: taint",
    33: "uses points cell: points; uses taint: taint", 34: "uses: points", 35: "uses taint: taint; uses: taint",
    36: "uses: static_points points; uses static_taint: taint",
    37: "uses points points: cell; uses points taint: effect",
    38: "uses: static_points; uses points: cell; uses taint: effect",
    39: "uses points cell points: cell; uses taint points: effect", 40: f"live: live {_BEGINS}",
    41: "comp_taint: comp_taint taint", 42: f"live: {_BEGINS}; comp_taint: taint",
    43: f"handed: {_BEGINS}; handed_taint: taint", 44: "live: reached unknown",
    45: "reached handed: points; reached handed handed_taint: taint",
    46: "exit_points: handed; exit_points exit_taint: handed_taint", 47: "live: live",
    48: "uses handed: points; uses handed handed_taint: taint; uses live: points; uses live comp_taint: taint",
}
# The same of the second set.
_SOURCES = "reached points label cell_label unknown"
SECOND_SHAPES = {
    1: "reached: reached", 3: "points: points; label: label", 4: "label: label", 5: "reached: points; label: label",
    6: "points: cell; label: cell_label", 7: "points cell: points; points cell_label: label",
    8: "points points: cell; points label: cell_label",
    9: "reached static_points: points; reached static_label: label; reached: label",
    10: "points: static_points; label: static_label", 11: "points: points exit_points; label: label exit_label",
    12: "points: exit_points; label: exit_label", 13: "cell: back", 14: "cell_label: holds; holds back: holds",
    22: f"reached: {_ENTERS}", 23: f"points: {_ENTERS} points", 24: "calls points: points; calls label: label",
    25: "exit_points called_by: points; exit_label called_by: label",
    26: "exit_points called_by: points exit_points; exit_label called_by: label exit_label",
    27: "reached: uses unknown; points: uses unknown", 28: f"reached: {_ENTERS}", 30: "uses points: handed",
    31: "uses label: arrive; uses points holds: arrive", 32: "uses points: points; uses label: label",
    33: "uses points cell: points; uses points cell_label: label", 34: "uses: points",
    35: "uses: label cell_label; uses label: label cell_label; uses points holds: label cell_label",
    36: "uses: static_points points", 37: "uses points points: cell; uses points label: cell_label",
    38: "uses: static_points; uses points: cell; uses label: cell_label",
    39: "uses points cell points: cell; uses points cell_label points: cell_label",
    40: "live: live reached points unknown", 42: f"live: {_SOURCES}", 43: f"handed: {_SOURCES}",
    44: "live: reached unknown", 45: "reached handed: points", 46: "exit_points: handed", 47: "live: live",
    48: "uses handed: points; uses live: points",
}


def _read(shapes: str) -> set[tuple[tuple[int, ...], int]]:
    found = set()
    for shape in shapes.split(";"):
        premises, _, conclusions = shape.partition(":")
        for conclusion in conclusions.split():
            found.add((tuple(int(Kind[word.upper()]) for word in premises.split()), int(Kind[conclusion.upper()])))
    return found


_SHAPES, _SECOND_SHAPES = ({rule: _read(shapes) for rule, shapes in one.items()} for one in (SHAPES, SECOND_SHAPES))


def blocks_of(text: str) -> list[list[str]]:
    """The lines of each story, whose first line says how many there are. Raises `ValueError` where they are others."""
    blocks: list[list[str]] = []
    lines = iter(text.splitlines())
    for line in lines:
        word, _, number = line.partition(" ")
        if word != "story":
            raise ValueError(line)
        blocks.append([next(lines, "") for _ in range(int(number))])
    return blocks


def is_second(block: list[str]) -> bool:
    """Is a story by the second set of rules?"""
    return any(line.rpartition(" ")[2].startswith(SECOND) for line in block)


def fault_of(block: list[str]) -> str:
    """What is wrong with the lines of a story, empty where nothing is that can be seen without the app.

    Each is numbered, and is a start, or follows by a rule from one to four lines before it, whose rows and whose own
    are of kinds that the rule has in the set by which the story is. No row stands twice, each line but the last is
    used, and the last is an arrival.
    """
    shapes = _SECOND_SHAPES if is_second(block) else _SHAPES
    rows: list[bytes] = []
    used: set[int] = set()
    for number, line in enumerate(block, 1):
        found = LINE.fullmatch(line)
        if found is None or int(found[1]) != number:
            return f"line {number}: {line}"
        rows.append(bytes.fromhex(found[4]))
        if found[2] is None:
            if (rows[-1][0], rows[-1][-1]) != (LIVE, 0):
                return f"no start: {line}"
            continue
        premises = [int(word) for word in found[3].split()]
        if len(premises) > MOST or max(premises) >= number:
            return f"premises: {line}"
        used.update(premises)
        kinds = tuple(rows[premise - 1][0] for premise in premises)
        if (kinds, rows[-1][0]) not in shapes.get(int(found[2]), set()):
            return f"kinds {kinds}: {line}"
    if not rows or rows[-1][0] != ARRIVE:
        return "the end"
    if len(rows) != len(set(rows)):
        return "a row twice"
    return "" if used == set(range(1, len(rows))) else "a line that no later one uses"


def rows_of(block: list[str]) -> list[bytes]:
    """The rows of a story."""
    return [bytes.fromhex(line.rpartition(" ")[2]) for line in block]
