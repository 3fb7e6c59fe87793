"""Runs drawn apps on the machine of `docs/MACHINE.md`, apart from the program: which labels arrive, and where.

What a run does where the machine leaves it open is drawn from a seed. A run is a beginning of one of the machine's, so
each arrival is one that a right report names, or that is declared.
"""
from __future__ import annotations

from dataclasses import dataclass, field
from typing import NamedTuple

from tests import drawn_apps as apps
from tests.drawn_apps import Draws, DrawnApp
from tests.small_dex import ARRAY, OBJECT, AppClass, Called, Code

NO_LABELS: frozenset[str] = frozenset()
ELEM = "[]"
# From a state, the event that comes and the state behind it (the table of activities).
LIFE = ((0, "<init>", 1), (1, "onCreate", 2), (2, "onStart", 3), (3, "onResume", 4), (3, "onStop", 6),
        (4, "onPause", 5), (5, "onResume", 4), (5, "onStop", 6), (6, "onRestart", 7), (7, "onStart", 3),
        (6, "onDestroy", 0), (2, "onDestroy", 0))
SHARED = "shared"


class Value(NamedTuple):
    """A place in the heap or none, and labels."""
    place: int | None = None
    labels: frozenset[str] = NO_LABELS


BLANK = Value()


@dataclass
class Thing:
    """An object: its class, and its entries by key, of which elements are any number and another key has one."""
    kind: str
    entries: dict[object, list[Value]] = field(default_factory=dict)


@dataclass
class Frame:
    """A method that runs."""
    code: Code
    registers: list[Value]
    at: int = 0
    result: Value = BLANK
    caught: Value = BLANK


class Arrival(NamedTuple):
    """A label that came to a sink, and where."""
    source: str
    sink: str
    place: str


class Run:
    """One run of an app."""

    def __init__(self, app: DrawnApp, seed: int) -> None:
        self.classes: dict[str, AppClass] = {one.name: one for one in app.classes}
        self.is_plain, self.draws = app.is_plain, Draws(seed)
        self.heap: list[Thing] = []
        self.statics: dict[object, Value] = {}
        self.frames: list[Frame] = []
        self.state, self.component = 0, BLANK
        self.handed: list[int] = []
        self.arrivals: set[Arrival] = set()

    def among(self, choices: list[Value]) -> Value:
        return choices[self.draws.below(len(choices))]

    def made(self, kind: str) -> int:
        """A new object."""
        self.heap.append(Thing(kind))
        return len(self.heap) - 1

    def body(self, kind: str, called: Called) -> Code | None:
        """The body of a method from a class upward."""
        at = self.classes.get(kind)
        while at is not None:
            for code in at.methods:
                if (code.called.name, code.called.parameters) == (called.name, called.parameters):
                    return code
            at = self.classes.get(at.above)
        return None

    def is_below(self, kind: str, wanted: str) -> bool:
        """Whether a class is below a type: itself, all objects, or what is above a class of the app."""
        if kind == wanted or wanted == OBJECT:
            return True
        one = self.classes.get(kind)
        return one is not None and any(self.is_below(above, wanted) for above in (one.above, *one.interfaces))

    def reached(self, value: Value) -> frozenset[str]:
        """All labels that are reached from a value."""
        found, todo, seen = set(value.labels), [value.place], set()
        while todo:
            place = todo.pop()
            if place is None or place in seen:
                continue
            seen.add(place)
            for entries in self.heap[place].entries.values():
                for entry in entries:
                    found |= entry.labels
                    todo.append(entry.place)
        return frozenset(found)

    def got(self, value: Value, key: object) -> Value:
        """The value of any entry of this key."""
        entries = [] if value.place is None else self.heap[value.place].entries.get(key, [])
        return self.among([*entries, BLANK]) if key == ELEM or not entries else entries[0]

    def put(self, value: Value, key: object, entry: Value) -> None:
        if value.place is not None:
            entries = self.heap[value.place].entries.setdefault(key, [])
            if key != ELEM:
                entries.clear()
            entries.append(entry)

    def enter(self, code: Code, arguments: list[Value]) -> None:
        blanks = [BLANK] * (code.registers - code.ins)
        self.frames.append(Frame(code, blanks + (arguments + [BLANK] * code.ins)[:code.ins]))

    def events(self) -> list[tuple[str, Value, int]]:
        """What may come: the method, the object that it comes to, and the state behind it."""
        found = [(name, self.component, to) for state, name, to in LIFE if state == self.state]
        if not self.is_plain:
            objects = [Value(place) for place in dict.fromkeys(self.handed)]
            if self.state:
                objects.append(self.component)
            found += [(apps.BODY, one, self.state) for one in objects if one.place is not None
                      and self.is_below(self.heap[one.place].kind, apps.CALLED)]
        return found

    def begin(self) -> None:
        """An event comes."""
        choices = self.events()
        name, receiver, to = choices[self.draws.below(len(choices))]
        if self.state == 0:
            receiver = Value(self.made(apps.MAIN))
        parameters = {**apps.EVENTS, apps.BODY: (OBJECT,)}.get(name, ())
        kind = apps.MAIN if name != apps.BODY or receiver.place is None else self.heap[receiver.place].kind
        self.state, self.component = to, self.component if name == apps.BODY else Value(receiver.place if to else None)
        code = self.body(kind, Called(kind, name, parameters, "V"))
        if code is not None:
            source = frozenset({"phone"}) if name == apps.BODY else NO_LABELS
            self.enter(code, [receiver, *(self.parameter(kind, source) for kind in parameters)])

    def parameter(self, kind: str, labels: frozenset[str]) -> Value:
        """A parameter of an event: a blank, a fresh object, or one that was handed; it has the labels of its source."""
        fresh = self.made(kind)
        if labels:
            self.heap[fresh].entries[ELEM] = [Value(None, labels)]
        places = [None, fresh, *(one for one in self.handed if self.is_below(self.heap[one].kind, kind))]
        return Value(places[self.draws.below(len(places))], labels)

    def step(self) -> None:
        """One instruction, or a blank that it raises."""
        frame = self.frames[-1]
        one = frame.code.body[frame.at]
        if self.draws.below(40) == 0:
            self.raised(BLANK)
        elif one[0] in ("call", "virtual"):
            self.call(frame, one[1], [frame.registers[int(register)] for register in one[2:]])  # type: ignore
        elif one[0] == "throw":
            self.raised(frame.registers[int(one[1])])  # type: ignore[call-overload]
        elif one[0] in ("return", "end"):
            self.returned(frame.registers[int(one[1])] if one[0] == "return" else BLANK)  # type: ignore[call-overload]
        else:
            getattr(self, f"do_{one[0]}")(frame, *one[1:])
            frame.at += 1

    def do_const(self, frame: Frame, to: int) -> None:
        frame.registers[to] = BLANK

    def do_move(self, frame: Frame, to: int, source: int) -> None:
        frame.registers[to] = frame.registers[source]

    def do_new(self, frame: Frame, to: int, kind: str) -> None:
        frame.registers[to] = Value(self.made(kind))

    def do_new_array(self, frame: Frame, to: int, size: int) -> None:
        frame.registers[to] = Value(self.made(ARRAY), frame.registers[size].labels)

    def do_aget(self, frame: Frame, to: int, array: int, _index: int) -> None:
        frame.registers[to] = self.got(frame.registers[array], ELEM)

    def do_aput(self, frame: Frame, value: int, array: int, _index: int) -> None:
        self.put(frame.registers[array], ELEM, frame.registers[value])

    def do_iget(self, frame: Frame, to: int, of: int, key: tuple[str, str]) -> None:
        frame.registers[to] = self.got(frame.registers[of], key)

    def do_iput(self, frame: Frame, value: int, of: int, key: tuple[str, str]) -> None:
        self.put(frame.registers[of], key, frame.registers[value])

    def do_sget(self, frame: Frame, to: int, static: tuple[str, str]) -> None:
        frame.registers[to] = self.statics.get(static, BLANK)

    def do_sput(self, frame: Frame, value: int, static: tuple[str, str]) -> None:
        self.statics[static] = frame.registers[value]

    def do_join(self, frame: Frame, to: int, one: int, other: int) -> None:
        frame.registers[to] = Value(None, frame.registers[one].labels | frame.registers[other].labels)

    def do_result(self, frame: Frame, to: int) -> None:
        frame.registers[to] = frame.result

    def do_caught(self, frame: Frame, to: int) -> None:
        frame.registers[to] = frame.caught

    def do_if(self, frame: Frame, _register: int, target: int) -> None:
        if self.draws.below(2):
            frame.at = target - 1

    def raised(self, value: Value) -> None:
        """A raised value goes to a handler, or up."""
        while self.frames:
            frame = self.frames[-1]
            if frame.at < frame.code.guarded and self.draws.below(4):
                frame.at, frame.caught = frame.code.handler, value
                return
            self.frames.pop()

    def returned(self, value: Value) -> None:
        self.frames.pop()
        if self.frames:
            self.frames[-1].result = value
            self.frames[-1].at += 1
        elif value.place is not None:
            self.handed.append(value.place)

    def call(self, frame: Frame, called: Called, values: list[Value]) -> None:
        """A call: of a body, of the library, or of nothing, which can only raise."""
        code = self.body(called.owner, called)
        if called.owner == apps.BASE:
            place = values[0].place
            if place is None:
                self.raised(BLANK)
                return
            code = self.body(self.heap[place].kind, called)
        if code is not None:
            self.enter(code, values)
            return
        result = self.library(frame, called, values)
        frame.result = result
        frame.at += 1

    def library(self, frame: Frame, called: Called, values: list[Value]) -> Value:
        """What a call of the library gives, by its row in the lists of drawn apps, or by the default of objects."""
        before = [self.reached(value) for value in values]
        elements = [list(self.heap[value.place].entries.get(ELEM, [])) if value.place is not None else []
                    for value in values]
        self.handed += [value.place for value in values if value.place is not None]
        if called in (apps.POST, apps.WRITE):
            place = f"{frame.code.called.text} @{frame.code.addresses()[frame.at]}"
            sink = "network" if called is apps.POST else "log"
            self.arrivals |= {Arrival(label, sink, place) for label in before[0]}
        if called in (apps.STORE, apps.LOAD) and SHARED not in self.statics:
            self.statics[SHARED] = Value(self.made(apps.BOX))
        result = self.given(called, values, before, elements)
        if called is apps.PUT:
            self.put(values[0], ELEM, values[1])
        if called is apps.STORE:
            self.put(self.statics[SHARED], ELEM, values[0])
        if called is apps.COPY:
            for element in elements[1]:
                self.put(values[0], ELEM, element)
        return result

    def given(self, called: Called, values: list[Value], before: list[frozenset[str]],
              elements: list[list[Value]]) -> Value:
        """The result by the row of the lists."""
        if called is apps.DEVICE_ID:
            return self.joined(OBJECT, frozenset({"device_id"}))
        if called is apps.PHONE:
            return Value(None, frozenset({"phone"}))
        if called is apps.OF:
            return self.joined(apps.TEXT, before[0])
        if called is apps.SAME:
            return values[0]
        if called is apps.GET:
            return self.among([*elements[0], BLANK])
        if called is apps.LOAD:
            return self.statics[SHARED]
        if called is apps.BACK:
            live = [self.component] if self.state else []
            return self.among([BLANK, *(Value(place) for place in self.handed), *live])
        return BLANK

    def joined(self, kind: str, labels: frozenset[str]) -> Value:
        """A joined result of a reference type."""
        place = self.made(kind)
        self.heap[place].entries[ELEM] = [Value(None, labels)]
        return Value(place, labels)


def arrivals(app: DrawnApp, runs: int, steps: int) -> set[Arrival]:
    """What arrives in so many runs of so many steps each."""
    found: set[Arrival] = set()
    for seed in range(runs):
        run = Run(app, seed + 1)
        for _ in range(steps):
            if run.frames:
                run.step()
            else:
                run.begin()
            if len(run.frames) > 40:
                break
        found |= run.arrivals
    return found
