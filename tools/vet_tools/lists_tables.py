"""Reads the tables of the library (`lists/README.md` says how they are written)."""
from __future__ import annotations

from collections.abc import Iterator
from pathlib import Path

from vet_tools.lists_effects import EffectFault, effects_of
from vet_tools.lists_model import (CallbackRow, Default, Head, Kind, LibraryClass, MethodRow, Place, StaticRow,
                                   TableFault, Tables)
from vet_tools.lists_names import NameFault, Names, descriptor_of, dotted_of, written_out

FILES = ("head.txt", "classes.txt", "methods.txt", "callbacks.txt", "statics.txt")


def lines_of(path: Path) -> Iterator[tuple[Place, str]]:
    """The lines that say something, with their places. Raises TableFault where the file is none that can be read."""
    try:
        text = path.read_text("utf-8")
    except OSError as fault:
        raise TableFault(Place(path.name, 0), f"the table {path} cannot be read: {fault.strerror}") from None
    except UnicodeDecodeError:
        raise TableFault(Place(path.name, 0), f"the table {path} is no text in UTF-8") from None
    for number, line in enumerate(text.splitlines(), 1):
        if line.strip() and not line.lstrip().startswith("#"):
            yield Place(path.name, number), line.strip()


def section(place: Place, line: str) -> str | None:
    """What stands in the brackets of a line that opens a section; None for other lines."""
    if not line.startswith("["):
        return None
    if not line.endswith("]") or not line[1:-1].strip():
        raise TableFault(place, "a section is opened by a name in brackets")
    return line[1:-1].strip()


def add_once(place: Place, known: dict[str, str], name: str, value: str) -> None:
    """Adds a name of the head. Raises TableFault where it is there."""
    if name in known:
        raise TableFault(place, f"{name} stands twice")
    known[name] = value


def read_head(path: Path) -> Head:
    """The number of rows, the categories, the shared objects, the prefixes. Raises TableFault."""
    head = Head()
    for place, line in lines_of(path):
        word, _, rest = line.partition(" ")
        name, _, said = rest.strip().partition(" ")
        if word == "rows" and name.isdigit():
            head.rows = int(name)
        elif word == "strict" and not rest:
            head.strict = True
        elif word == "large" and rest.strip() == "cells":
            head.large = "cells"
        elif word == "category" and said.strip():
            add_once(place, head.categories, name, said.strip())
        elif word == "shared" and said.strip():
            add_once(place, head.shared, name, descriptor_of(said.strip()))
        elif word in ("platform", "bundled") and name and not said:
            (head.platform if word == "platform" else head.bundled).append(name)
        else:
            raise TableFault(place, "a line is `rows N`, `strict`, `large cells`, `category NAME MEANING`, "
                                    "`shared NAME CLASS`, `platform PREFIX` or `bundled PREFIX`")
    return head


def class_line(place: Place, package: str, line: str) -> tuple[str, Kind, list[str], Default | None]:
    """Dotted name, kind, parents as they are written, and default. Raises TableFault."""
    told, equals, default = line.partition("=")
    left, _, parents = told.partition(":")
    words = left.split()
    try:
        kind = Kind(words[0])
        chosen = Default(default.strip()) if equals else None
    except (ValueError, IndexError):
        raise TableFault(place, "a line is `interface|class|final|closed NAME [: PARENT ..] "
                                "[= blank|joined|mixed]`") from None
    if len(words) != 2 or "." in words[1] or not package:
        raise TableFault(place, "a class has one name, without its package, in the section of its package")
    return f"{package}.{words[1]}", kind, parents.split(), chosen


def read_classes(path: Path) -> tuple[Names, dict[str, LibraryClass]]:
    """All classes by name. Raises TableFault."""
    package, told = "", []
    for place, line in lines_of(path):
        opened = section(place, line)
        package = opened or package
        if opened is None:
            told.append((place, *class_line(place, package, line)))
    names = Names(entry[1] for entry in told)
    classes: dict[str, LibraryClass] = {}
    for place, dotted, kind, parents, default in told:
        name = descriptor_of(dotted)
        if name in classes:
            raise TableFault(place, f"{dotted} stands twice, first at {classes[name].place}")
        try:
            above = tuple(names.class_of(parent, dotted.rsplit(".", 1)[0]) for parent in parents)
        except NameFault as fault:
            raise TableFault(place, str(fault)) from None
        object_too = () if above or dotted == "java.lang.Object" else (descriptor_of("java.lang.Object"),)
        classes[name] = LibraryClass(name, kind, above + object_too, default, place)
    return names, classes


def rows_of(path: Path, names: Names) -> Iterator[tuple[Place, str, str, str, str]]:
    """Each line of a table of rows, written out: its place, its class and package, what it says, and the reason."""
    owners: list[str] = []
    for place, line in lines_of(path):
        try:
            opened = section(place, line)
            if opened is not None:
                owners = [names.class_of(name, "") for name in opened.split()]
                continue
            if not owners:
                raise TableFault(place, "a row stands in the section of its class")
            said, _, reason = line.partition(" -- ")
            for owner in owners:
                package = dotted_of(owner).rsplit(".", 1)[0]
                for text in written_out(said):
                    yield place, owner, package, " ".join(text.split()), reason.strip()
        except NameFault as fault:
            raise TableFault(place, str(fault)) from None


def signed(place: Place, names: Names, package: str, text: str) -> tuple[str, str, bool, list[str]]:
    """Name, descriptor and whether static of a row, and the words behind its signature. Raises TableFault."""
    head, closing, rest = text.partition(")")
    try:
        return *names.signature(head.replace(", ", ",") + closing, package), rest.split()
    except NameFault as fault:
        raise TableFault(place, str(fault)) from None


def read_methods(path: Path, names: Names) -> list[MethodRow]:
    """The rows of methods. Raises TableFault."""
    found = []
    for place, owner, package, text, reason in rows_of(path, names):
        name, proto, static, words = signed(place, names, package, text)
        try:
            found.append(MethodRow(owner, name, proto, static, effects_of(words), reason, place))
        except EffectFault as fault:
            raise TableFault(place, str(fault)) from None
    return found


def read_callbacks(path: Path, names: Names) -> list[CallbackRow]:
    """The rows of callbacks: a signature, and `source POSITION CATEGORY` for each source. Raises TableFault."""
    found = []
    for place, owner, package, text, reason in rows_of(path, names):
        name, proto, static, words = signed(place, names, package, text)
        triples = [tuple(words[i:i + 3]) for i in range(0, len(words), 3)]
        if static or any(len(t) != 3 or t[0] != "source" or not t[1].isdigit() for t in triples):
            raise TableFault(place, "a callback is a method that is not static, with `source POSITION CATEGORY`")
        sources = tuple((int(t[1]), t[2]) for t in triples)
        found.append(CallbackRow(owner, name, proto, sources, reason, place))
    return found


def read_statics(path: Path, names: Names) -> list[StaticRow]:
    """The static fields: `Type NAME`, and `source CATEGORY` where one is personal data. Raises TableFault."""
    found = []
    for place, owner, package, text, reason in rows_of(path, names):
        words = text.split()
        if len(words) not in (2, 4) or words[2:3] not in ([], ["source"]):
            raise TableFault(place, "a line is `Type NAME`, and `source CATEGORY` behind it")
        try:
            type_name = names.type_of(words[0], package)
        except NameFault as fault:
            raise TableFault(place, str(fault)) from None
        found.append(StaticRow(owner, words[1], type_name, words[3] if words[3:] else "", reason, place))
    return found


def read_tables(folder: Path) -> Tables:
    """All tables of a folder. Raises TableFault at the first line that is not of its form."""
    head = read_head(folder / "head.txt")
    names, classes = read_classes(folder / "classes.txt")
    return Tables(head, classes, read_methods(folder / "methods.txt", names),
                  read_callbacks(folder / "callbacks.txt", names), read_statics(folder / "statics.txt", names))
