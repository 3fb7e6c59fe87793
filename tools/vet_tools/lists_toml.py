"""Writes the tables of the library as the form that the program reads (`docs/FORMATS.md`)."""
from __future__ import annotations

import json
from collections.abc import Iterable, Iterator

from vet_tools.lists_model import CallbackRow, Effects, LibraryClass, MethodRow, Result, StaticRow, Tables

TITLE = """\
# What the store says of Android's library: which values are personal data, where they must not go undeclared, and
# what a library call does with its arguments. Made by tools/make-lists from the tables beside it: edit those.
"""


def text(value: str) -> str:
    """A text as a TOML basic string; a JSON string of visible ASCII is one."""
    return json.dumps(value)


def pairs(values: Iterable[tuple[object, object]]) -> str:
    """A list of pairs."""
    return json.dumps([list(pair) for pair in values])


def upward(classes: dict[str, LibraryClass]) -> list[LibraryClass]:
    """The classes in the order of the tables, but each behind its parents, as the form asks."""
    placed: dict[str, LibraryClass] = {}

    def place(name: str) -> None:
        if name not in placed and name in classes:
            for parent in classes[name].parents:
                place(parent)
            placed[name] = classes[name]

    for name in classes:
        place(name)
    return list(placed.values())


def class_lines(entry: LibraryClass) -> Iterator[str]:
    """The lines of a class."""
    yield "[[class]]"
    yield f"name = {text(entry.name)}"
    if entry.parents:
        yield f"parents = {json.dumps(list(entry.parents))}"
    if entry.default:
        yield f"default = {text(entry.default.value)}"


def result_lines(effects: Effects) -> Iterator[str]:
    """The result's keys; a joined result of a source needs no word."""
    if effects.result is not Result.BLANK and not (effects.source and not effects.positions):
        yield f"result = {text(effects.result.value)}"
    if effects.positions:
        yield f"from = {json.dumps(list(effects.positions))}"
    if effects.result is Result.SHARED:
        yield f"shared = {text(effects.shared)}"


def method_lines(row: MethodRow) -> Iterator[str]:
    """The lines of a row of a method, with its reason in front."""
    effects = row.effects
    if row.reason:
        yield f"# {row.reason}"
    yield "[[method]]"
    yield f"class = {text(row.owner)}"
    yield f"name = {text(row.name)}"
    yield f"proto = {text(row.proto)}"
    if row.static:
        yield "static = true"
    yield from result_lines(effects)
    for key, values in (("puts", effects.puts), ("stores", effects.stores), ("copies", effects.copies)):
        if values:
            yield f"{key} = {pairs(values)}"
    if effects.source:
        yield f"source = {text(effects.source)}"
    if effects.sink:
        yield f"sink = {text(effects.sink)}"
        yield f"positions = {json.dumps(list(effects.sink_positions))}"
    if effects.reflective:
        yield "reflective = true"


def callback_lines(row: CallbackRow) -> Iterator[str]:
    """The lines of a row of a callback."""
    if row.reason:
        yield f"# {row.reason}"
    yield "[[callback]]"
    yield f"class = {text(row.owner)}"
    yield f"name = {text(row.name)}"
    yield f"proto = {text(row.proto)}"
    if row.sources:
        yield f"sources = {pairs(row.sources)}"


def static_lines(row: StaticRow) -> Iterator[str]:
    """The lines of a static field."""
    if row.reason:
        yield f"# {row.reason}"
    yield "[[static]]"
    yield f"class = {text(row.owner)}"
    yield f"name = {text(row.name)}"
    yield f"type = {text(row.type)}"
    if row.source:
        yield f"source = {text(row.source)}"


def head_lines(tables: Tables) -> Iterator[str]:
    """The keys of the top table."""
    head = tables.head
    yield f"rows = {head.rows}"
    yield f"categories = {json.dumps(list(head.categories))}"
    if head.strict:
        yield "strict = true"
    if head.platform:
        yield f"platform = {json.dumps(head.platform)}"
    if head.bundled:
        yield f"bundled = {json.dumps(head.bundled)}"
    if head.large:
        yield f"large = {text(head.large)}"


def lists_text(tables: Tables) -> str:
    """The whole form."""
    blocks = [head_lines(tables)]
    blocks += [class_lines(entry) for entry in upward(tables.classes)]
    blocks += [iter(["[[shared]]", f"name = {text(name)}", f"class = {text(owner)}"])
               for name, owner in tables.head.shared.items()]
    blocks += [method_lines(row) for row in tables.methods]
    blocks += [callback_lines(row) for row in tables.callbacks]
    blocks += [static_lines(row) for row in tables.statics]
    return TITLE + "\n".join("\n".join(block) + "\n" for block in blocks)
