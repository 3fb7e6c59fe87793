"""What is wrong with the tables of the library although each line is of its form; each fault in one sentence."""
from __future__ import annotations

import re
from collections.abc import Callable, Iterator
from dataclasses import dataclass

from vet_tools.lists_lookup import Lookup, positions_of, weaker
from vet_tools.lists_model import OBJECT, Default, Kind, MethodRow, Place, Result, Tables
from vet_tools.lists_names import dotted_of, is_reference, parameters

MOST_TABLES, MOST_ABOVE, MOST_ROWS, MOST_CATEGORIES, LONGEST = 65_536, 64, 4_000_000, 200, 255
CATEGORY = re.compile(r"[a-z0-9_]{1,255}")
HEAD = Place("head.txt", 0)
MADE = (Kind.CLASS, Kind.FINAL)
OBJECT_METHODS = frozenset({("clone", ()), ("toString", ()), ("hashCode", ()), ("equals", (OBJECT,)),
                            ("getClass", ()), ("finalize", ())})
# What the machine has as events of a component's life (docs/MACHINE.md), so that the library does not call it besides.
# A receiver may also be made and handed over by the app, so its onReceive is a callback too.
LIFE = {
    "Landroid/app/Activity;": {"onCreate(Landroid/os/Bundle;)V", "onStart()V", "onResume()V", "onPause()V",
                               "onStop()V", "onRestart()V", "onDestroy()V"},
    "Landroid/app/Service;": {"onCreate()V", "onStartCommand(Landroid/content/Intent;II)I", "onDestroy()V",
                              "onBind(Landroid/content/Intent;)Landroid/os/IBinder;",
                              "onUnbind(Landroid/content/Intent;)Z", "onRebind(Landroid/content/Intent;)V"},
    "Landroid/app/Application;": {"onCreate()V"},
}
Declared = Callable[[str], frozenset[tuple[str, tuple[str, ...]]]]


@dataclass(frozen=True)
class Fault:
    """One fault: which rule found it, where, and what is wrong."""
    rule: str
    place: Place
    text: str

    def __str__(self) -> str:
        return f"{self.place}: {self.text}"


def head_faults(tables: Tables) -> Iterator[Fault]:
    """Limits of the form, and names of the head that nothing has."""
    head = tables.head
    if not 1 <= head.rows <= MOST_ROWS:
        yield Fault("limits", HEAD, f"rows is {head.rows}, and may be 1 to {MOST_ROWS}")
    if not 1 <= len(head.categories) <= MOST_CATEGORIES:
        yield Fault("limits", HEAD, f"there are {len(head.categories)} categories, and may be 1 to {MOST_CATEGORIES}")
    for name in head.categories:
        if not CATEGORY.fullmatch(name):
            yield Fault("limits", HEAD, f"the category {name} has other signs than a-z, 0-9 and _")
    for what, count in (("classes", len(tables.classes)), ("shared objects", len(head.shared)),
                        ("methods", len(tables.methods)), ("callbacks", len(tables.callbacks)),
                        ("statics", len(tables.statics))):
        if count > MOST_TABLES:
            yield Fault("limits", HEAD, f"there are {count} {what}, and may be {MOST_TABLES}")
    for name, owner in head.shared.items():
        if owner not in tables.classes:
            yield Fault("listed", HEAD, f"the class {dotted_of(owner)} of the shared object {name} is not listed")
    for name in set(head.platform) & set(head.bundled):
        yield Fault("twice", HEAD, f"the prefix {name} is both platform and bundled")


def class_faults(tables: Tables) -> Iterator[Fault]:
    """Parents that are not listed, circles, too long walks and names, classes without any default."""
    for name, entry in tables.classes.items():
        for parent in entry.parents:
            if parent not in tables.classes:
                yield Fault("parents", entry.place,
                            f"{dotted_of(parent)}, a parent of {dotted_of(name)}, is not listed")
            elif name in tables.above(parent):
                yield Fault("circle", entry.place, f"{dotted_of(name)} stands above itself")
        if len(tables.above(name)) > MOST_ABOVE:
            yield Fault("limits", entry.place, f"more than {MOST_ABOVE} classes stand above {dotted_of(name)}")
        if len(name) > LONGEST:
            yield Fault("limits", entry.place, f"a name has more than {LONGEST} bytes")
        if tables.default_of(name) is None:
            yield Fault("default", entry.place, f"no class above {dotted_of(name)} has a default")


def twice_faults(tables: Tables) -> Iterator[Fault]:
    """Rows that stand twice."""
    seen: dict[tuple[object, ...], Place] = {}
    for row in tables.methods:
        if row.key in seen:
            yield Fault("twice", row.place, f"{row} stands twice, first at {seen[row.key]}")
        seen.setdefault(row.key, row.place)
    for call in tables.callbacks:
        key = ("callback", call.owner, call.name, call.proto)
        if key in seen:
            yield Fault("twice", call.place, f"{call} stands twice, first at {seen[key]}")
        seen.setdefault(key, call.place)
    for entry in tables.statics:
        key = ("static", entry.owner, entry.name, entry.type)
        if key in seen:
            yield Fault("twice", entry.place, f"{entry.owner}->{entry.name} stands twice, first at {seen[key]}")
        seen.setdefault(key, entry.place)


def reason_faults(tables: Tables) -> Iterator[Fault]:
    """Sources, sinks and reflective rows that do not say why."""
    for row in tables.methods:
        if row.effects.wants_reason and not row.reason:
            yield Fault("reason", row.place, f"{row} is a source, a sink or reflective and has no reason")
    for call in tables.callbacks:
        if call.sources and not call.reason:
            yield Fault("reason", call.place, f"{call} has a source and no reason")
    for entry in tables.statics:
        if entry.source and not entry.reason:
            yield Fault("reason", entry.place, f"{entry.owner}->{entry.name} has a source and no reason")


def name_faults(tables: Tables) -> Iterator[Fault]:
    """Classes, categories and shared objects that are not listed."""
    owners = [*tables.methods, *tables.callbacks, *tables.statics]
    for row in owners:
        if row.owner not in tables.classes:
            yield Fault("listed", row.place, f"the class {dotted_of(row.owner)} is not listed")
    for row in tables.methods:
        for category in filter(None, (row.effects.source, row.effects.sink)):
            if category not in tables.head.categories:
                yield Fault("listed", row.place, f"{row}: {category} is no category")
        for shared in (*filter(None, [row.effects.shared]), *(name for _, name in row.effects.stores)):
            if shared not in tables.head.shared:
                yield Fault("listed", row.place, f"{row}: {shared} is no shared object")
    told = [(c.place, str(c), s) for c in tables.callbacks for _, s in c.sources]
    told += [(s.place, f"{s.owner}->{s.name}", s.source) for s in tables.statics if s.source]
    for place, what, category in told:
        if category not in tables.head.categories:
            yield Fault("listed", place, f"{what}: {category} is no category")


def position_faults(tables: Tables) -> Iterator[Fault]:
    """Positions that the method does not have, and results that it can't have."""
    for row in tables.methods:
        effects, every = row.effects, positions_of(row.proto, row.static)
        named = {*effects.positions, *effects.sink_positions, *(i for i, _ in effects.stores),
                 *(i for pair in (*effects.puts, *effects.copies) for i in pair)}
        if named - set(every):
            yield Fault("position", row.place, f"{row} has no position {max(named - set(every))}")
        result = row.proto[row.proto.index(")") + 1:]
        if result == "V" and effects.result is not Result.BLANK:
            yield Fault("position", row.place, f"{row} gives nothing back, so it has no result")
        if effects.result in (Result.HANDED, Result.SHARED) and not is_reference(result):
            yield Fault("position", row.place, f"{row} gives back a number, so it can give no object")
        if row.static and row.name == "<init>":
            yield Fault("position", row.place, f"{row}: a constructor is not static")
    for call in tables.callbacks:
        if any(i not in positions_of(call.proto, False) for i, _ in call.sources):
            yield Fault("position", call.place, f"{call} does not have a position of its sources")


def kept_faults(tables: Tables) -> Iterator[Fault]:
    """Rows of `get..` and `is..` that give nothing back of what the same class is given by a row of `set..`."""
    setters = {(row.owner, row.name.removeprefix("set")) for row in tables.methods
               if row.name.startswith("set") and row.proto.endswith(")V") and not row.static and gives_nothing(row)}
    for row in tables.methods:
        named = re.fullmatch(r"(?:get|is)(.+)", row.name)
        if named and not row.proto.endswith("V") and gives_nothing(row) and (row.owner, named[1]) in setters:
            yield Fault("kept", row.place, f"{row} gives back what set{named[1]} was given, which keeps it nowhere")


def gives_nothing(row: MethodRow) -> bool:
    """Whether what a method is given is neither kept in its receiver or elsewhere nor comes out of it."""
    effects = row.effects
    return effects.result is Result.BLANK and not (effects.puts or effects.stores or effects.copies
                                                   or effects.reflective)


def weaker_faults(tables: Tables, declared: Declared) -> Iterator[Fault]:
    """Rows below a class that has the method too and for which the lists say less. `declared` says what else than
    the rows tell is known of the methods of a class."""
    lookup = Lookup(tables)
    for row in tables.methods:
        if row.static or row.name == "<init>" or row.owner not in tables.classes:
            continue
        for above in lookup.walks[row.owner][1:]:
            fault = weaker_above(lookup, row, above, declared)
            if fault:
                yield fault


def weaker_above(lookup: Lookup, row: MethodRow, above: str, declared: Declared) -> Fault | None:
    """The fault of one row and one class above it, if there is one."""
    key = (row.name, tuple(parameters(row.proto)))
    protos = {it.proto for it in lookup.named.get(above, {}).get(key, []) if not it.static}
    if key in declared(above) or above == OBJECT and key in OBJECT_METHODS:
        protos = protos or {row.proto}
    for proto in protos:
        if weaker(lookup.effects(above, row.name, proto, False), row.effects, proto.endswith("V")):
            return Fault("weaker", row.place, f"{row} does more than the same method of {dotted_of(above)}, which a "
                                              f"call may name: give that one a row as strong")
    return None


def constructor_faults(tables: Tables) -> Iterator[Fault]:
    """Classes whose default is joined, so that a constructor keeps nothing, without a row for any constructor."""
    made = {row.owner for row in tables.methods if row.name == "<init>"}
    for name, entry in tables.classes.items():
        if entry.kind in MADE and tables.default_of(name) is Default.JOINED and name not in made:
            yield Fault("constructor", entry.place, f"{dotted_of(name)} is joined, which gives a constructor nothing, "
                                                    "and has no row for one")


def callback_faults(tables: Tables) -> Iterator[Fault]:
    """Methods of interfaces that have a row and no callback row, though an app may implement them."""
    called = {(call.owner, call.name, call.proto) for call in tables.callbacks}
    for row in tables.methods:
        entry = tables.classes.get(row.owner)
        if entry and entry.kind is Kind.INTERFACE and not row.static:
            if not any((above, row.name, row.proto) in called for above in tables.above(row.owner)):
                yield Fault("callback", row.place, f"{row} is of an interface, so an app may implement it and the "
                                                   "library may call it: it has no callback row")
    for call in tables.callbacks:
        if call.owner in tables.classes and tables.classes[call.owner].kind in (Kind.FINAL, Kind.CLOSED):
            yield Fault("closed", call.place, f"{call}: no class of an app can stand below {dotted_of(call.owner)}")


def life_faults(tables: Tables) -> Iterator[Fault]:
    """Callback rows of what is an event in the life of a component."""
    for call in tables.callbacks:
        for owner in tables.above(call.owner):
            if call.name + call.proto in LIFE.get(owner, ()):
                yield Fault("life", call.place, f"{call} is an event in the life of a component, so it has its time "
                                                "there: as a callback it would come at any")


def nothing_more(_: str) -> frozenset[tuple[str, tuple[str, ...]]]:
    """Says of no class that it has other methods than the rows tell."""
    return frozenset()


def faults(tables: Tables, declared: Declared = nothing_more) -> list[Fault]:
    """All faults, in the order of the rules; walks upward are tried only where no class is above itself."""
    found = [*head_faults(tables), *class_faults(tables), *twice_faults(tables), *reason_faults(tables),
             *name_faults(tables), *position_faults(tables), *constructor_faults(tables), *callback_faults(tables),
             *life_faults(tables), *kept_faults(tables)]
    return found + list(weaker_faults(tables, declared))
