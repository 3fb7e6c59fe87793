"""What a row of a story names: the instruction, the method, the object that is somewhere, and the one that holds it.

A story is by one of the two sets of rules (`docs/RULES.md`). By the first, a row that says where the value is has the
path by which something leads to it; by the second it says it of a value itself, of a cell of an object, or of an object
from which the value is reached.
"""
from __future__ import annotations

from vet_tools.certificate import Flat, Kind, Node, SiteKind, activation_of, node_of, site_of

# The kinds of rows that say where the value is, those of the second set among them, and where an object is.
LABELS = frozenset({Kind.LABEL, Kind.STATIC_LABEL, Kind.CELL_LABEL, Kind.HOLDS, Kind.EXIT_LABEL})
CELLS = frozenset({Kind.CELL_LABEL, Kind.HOLDS})
VALUES = LABELS | {Kind.TAINT, Kind.STATIC_TAINT, Kind.EFFECT, Kind.METHOD_EFFECT, Kind.EXIT_TAINT, Kind.COMP_TAINT,
                   Kind.HANDED_TAINT, Kind.ARRIVE}
OBJECTS = frozenset({Kind.POINTS, Kind.CELL, Kind.BACK, Kind.STATIC_POINTS, Kind.EXIT_POINTS, Kind.HANDED})
_WITH_NODE = frozenset({Kind.REACHED, Kind.POINTS, Kind.TAINT, Kind.CALLS, Kind.EFFECT, Kind.UNKNOWN, Kind.USES,
                        Kind.LABEL})
_WITH_ACTIVATION = frozenset({Kind.METHOD_EFFECT, Kind.EXIT_POINTS, Kind.EXIT_TAINT, Kind.CALLED_BY, Kind.EXIT_LABEL})


def node(row: Flat) -> Node | None:
    """The instruction that a row names, where it names one."""
    kind = row[0]
    if kind in _WITH_NODE:
        return node_of(row[1:])[0]
    if kind == Kind.ARRIVE:
        return node_of(row[3:])[0]
    if kind == Kind.CALLED_BY:
        return node_of(activation_of(row[1:])[1])[0]
    return None


def entered(row: Flat) -> Node | None:
    """The first instruction of the activation that a row names: of `Calls` and `CalledBy` that which is called."""
    if row[0] == Kind.CALLS:
        return activation_of(node_of(row[1:])[1])[0]
    if row[0] in _WITH_ACTIVATION:
        return activation_of(row[1:])[0]
    found = node(row)
    return None if found is None else Node(found.context, found.method, 0)


def keys(row: Flat) -> int:
    """How many keys the path has by which the value is reached, in a row of the first set that says where it is."""
    kind = row[0]
    if kind == Kind.ARRIVE:
        return 0
    if kind == Kind.TAINT:
        rest = node_of(row[1:])[1][1:]
    elif kind == Kind.EXIT_TAINT:
        rest = activation_of(row[1:])[1][1:]
    elif kind in (Kind.STATIC_TAINT, Kind.COMP_TAINT):
        rest = row[2 if kind == Kind.STATIC_TAINT else 3:]
    else:
        rest = site_of(_behind(row))[1]
    return rest[0] & 127


def _behind(row: Flat) -> Flat:
    """The fields from the site on, of a row that says that the objects of a site hold the value."""
    if row[0] == Kind.EFFECT:
        return node_of(row[1:])[1]
    return activation_of(row[1:])[1] if row[0] == Kind.METHOD_EFFECT else row[1:]


def changed(row: Flat) -> Flat | None:
    """The site whose objects hold the value, of a row that names one."""
    if row[0] == Kind.COMP_TAINT:
        return (int(SiteKind.COMPONENT), row[1])
    if row[0] in (Kind.EFFECT, Kind.METHOD_EFFECT, Kind.HANDED_TAINT, Kind.CELL_LABEL, Kind.HOLDS):
        return site_of(_behind(row))[0]
    return None


def held(row: Flat) -> Flat:
    """The site of the object of which a row says where it is."""
    kind = row[0]
    if kind == Kind.POINTS:
        return node_of(row[1:])[1][1:]
    if kind == Kind.CELL:
        return site_of(row[1:])[1][1:]
    if kind == Kind.BACK:
        return site_of(row[1:])[0]
    if kind == Kind.STATIC_POINTS:
        return row[2:]
    return activation_of(row[1:])[1][1:] if kind == Kind.EXIT_POINTS else row[1:]


def holder(row: Flat) -> Flat:
    """The site of the objects that hold another, of a `Cell` row."""
    return site_of(row[1:])[0]
