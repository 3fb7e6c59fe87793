"""Holds the tables of the library against class files: the JDK's own for java.*, and those of an SDK's jar."""
from __future__ import annotations

from collections.abc import Iterator
from pathlib import Path

from vet_tools.lists_javap import Member, Shape, shapes
from vet_tools.lists_lint import LIFE, Declared, Fault
from vet_tools.lists_lookup import Lookup
from vet_tools.lists_model import OBJECT, Default, Kind, Tables
from vet_tools.lists_names import descriptor_of, dotted_of, parameters

IN_THE_JDK = ("java.", "javax.", "org.w3c.dom.", "org.xml.sax.")


def known_shapes(tables: Tables, jar: Path | None) -> dict[str, Shape]:
    """The class files of the listed classes: of the jar where there is one and it has the class, else of the JDK.
    Raises NoJavap."""
    names = [dotted_of(name) for name in tables.classes]
    found = shapes((name for name in names if name.startswith(IN_THE_JDK)))
    if jar:
        found.update(shapes(names, jar))
    return found


def declared_by(known: dict[str, Shape]) -> Declared:
    """What the class files declare, as the lint of weaker rows asks for it."""
    by_class = {descriptor_of(name): frozenset((m.name, tuple(parameters(m.proto))) for m in shape.members
                                               if {"public", "protected"} & m.words and "static" not in m.words)
                for name, shape in known.items()}
    return lambda name: by_class.get(name, frozenset())


def kind_of(shape: Shape) -> Kind:
    """The kind that a class file shows."""
    if shape.kind == "interface":
        return Kind.INTERFACE
    if shape.extensible:
        return Kind.CLASS
    return Kind.FINAL if shape.made else Kind.CLOSED


def too_narrow(told: Kind, true: Kind) -> bool:
    """Whether a table denies what a class file allows: a class below, a constructor, or that it is an interface. The
    other way round is allowed, since libraries close classes as they grow older."""
    order = (Kind.CLOSED, Kind.FINAL, Kind.CLASS)
    if Kind.INTERFACE in (told, true):
        return told is not true
    return order.index(told) < order.index(true)


def class_faults(tables: Tables, known: dict[str, Shape]) -> Iterator[Fault]:
    """Kinds and parents that are not those of the class files."""
    for name, entry in tables.classes.items():
        shape = known.get(dotted_of(name))
        if shape is None:
            continue
        if too_narrow(entry.kind, kind_of(shape)):
            yield Fault("kind", entry.place, f"{shape.name} is {kind_of(shape).value} in its class file")
        above = set(tables.above(name))
        for parent in shape.parents:
            if descriptor_of(parent) in tables.classes and descriptor_of(parent) not in above:
                yield Fault("hierarchy", entry.place, f"{parent} stands above {shape.name} in its class file")


def constructor_faults(tables: Tables, known: dict[str, Shape], lookup: Lookup) -> Iterator[Fault]:
    """Constructors with parameters of classes whose default is joined that have no row."""
    for name, entry in tables.classes.items():
        shape = known.get(dotted_of(name))
        if shape is None or tables.default_of(name) is not Default.JOINED:
            continue
        for made in shape.members:
            if made.name == "<init>" and {"public", "protected"} & made.words and parameters(made.proto):
                if (name, "<init>", made.proto, False) not in lookup.rows:
                    yield Fault("constructor", entry.place, f"{shape.name} is joined, which gives a constructor "
                                                            f"nothing: {made.proto} has no row")


def must_be_called(shape: Shape, method: Member) -> bool:
    """Whether an app class below this one has to implement the method, so that the library may call it there."""
    return method.open_to_apps and ("abstract" in method.words or shape.name == "java.lang.Object")


def callback_faults(tables: Tables, known: dict[str, Shape]) -> Iterator[Fault]:
    """Abstract methods of classes that an app can have a class below, and of Object those that it can override,
    without a callback row."""
    called = {(call.owner, call.name, call.proto) for call in tables.callbacks}
    for name, entry in tables.classes.items():
        shape = known.get(dotted_of(name))
        if shape is None or entry.kind not in (Kind.INTERFACE, Kind.CLASS):
            continue
        above = tables.above(name)
        for method in shape.members:
            if not must_be_called(shape, method) or any(method.name + method.proto in LIFE.get(it, ()) for it in above):
                continue
            if not any((it, method.name, method.proto) in called for it in above):
                yield Fault("callback", entry.place, f"an app may implement {shape.name}.{method.name}{method.proto}, "
                                                     "and it has no callback row")


def shape_faults(tables: Tables, known: dict[str, Shape]) -> list[Fault]:
    """All faults that class files show, but for weaker rows, for which `declared_by` tells more methods."""
    if OBJECT not in tables.classes:
        return []
    return [*class_faults(tables, known), *constructor_faults(tables, known, Lookup(tables)),
            *callback_faults(tables, known)]
