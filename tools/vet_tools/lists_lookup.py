"""Which row or default a call comes to, as `docs/MACHINE.md` says it, and whether one effect is weaker than another."""
from __future__ import annotations

from vet_tools.lists_model import Default, Effects, MethodRow, Result, Tables
from vet_tools.lists_names import parameters


def positions_of(proto: str, static: bool) -> tuple[int, ...]:
    """The positions of a method."""
    return tuple(range(len(parameters(proto)) + (not static)))


def default_effects(default: Default | None, proto: str, static: bool) -> Effects:
    """A default written out for a method."""
    every = positions_of(proto, static)
    if default in (None, Default.BLANK):
        return Effects()
    puts = () if static or default is Default.JOINED else tuple((i, 0) for i in every[1:])
    return Effects(result=Result.JOINED, positions=every, puts=puts)


class Lookup:
    """The rows of the tables by class and signature."""

    def __init__(self, tables: Tables) -> None:
        self.tables = tables
        self.rows: dict[tuple[str, str, str, bool], MethodRow] = {}
        self.named: dict[str, dict[tuple[str, tuple[str, ...]], list[MethodRow]]] = {}
        for row in tables.methods:
            self.rows.setdefault(row.key, row)
            own = self.named.setdefault(row.owner, {})
            own.setdefault((row.name, tuple(parameters(row.proto))), []).append(row)
        self.walks = {name: tables.above(name) for name in tables.classes}

    def row(self, owner: str, name: str, proto: str, static: bool) -> MethodRow | None:
        """The first row going upward from the class."""
        found = (self.rows.get((above, name, proto, static)) for above in self.walks.get(owner, ()))
        return next((it for it in found if it), None)

    def effects(self, owner: str, name: str, proto: str, static: bool) -> Effects:
        """What a call of the method does by the lists: its row, else the default of the class."""
        row = self.row(owner, name, proto, static)
        return row.effects if row else default_effects(self.tables.default_of(owner), proto, static)


def weaker_result(less: Effects, more: Effects) -> bool:
    """Whether `less` gives back less than `more`: no such object, or fewer labels. An element counts as all of its
    holder here, since what the library was given stands in the holder's elements, and a joined result has its labels
    there as well."""
    if more.result is Result.BLANK:
        return False
    if more.result is Result.JOINED:
        whole = less.result is Result.SAME and set(more.positions) <= set(less.positions)
        joined = less.result in (Result.JOINED, Result.TAKEN) and set(more.positions) <= set(less.positions)
        return not (whole or joined)
    return (less.result, less.positions, less.shared) != (more.result, more.positions, more.shared)


def weaker(less: Effects, more: Effects, void: bool) -> bool:
    """Whether a call with the effects `less` may do less than one with `more`, for a method that gives nothing back
    where `void`."""
    if less.reflective:
        return False
    moved = set(more.puts) - set(less.puts) or set(more.copies) - set(less.copies)
    sunk = more.sink and (less.sink != more.sink or set(more.sink_positions) - set(less.sink_positions))
    return bool(more.reflective or sunk or more.source and less.source != more.source
                or moved or set(more.stores) - set(less.stores) or not void and weaker_result(less, more))
