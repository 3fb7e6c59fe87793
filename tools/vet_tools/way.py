"""A story told as a way from source to sink: what happens to the value, step by step, each where it happens.

Told are the lines that say where the value is, and where the objects are in which it is kept meanwhile, each behind
those that make it possible. What only copies, or spreads what was said to callers and to what holds an object, is left
out; so is how an object comes about that goes nowhere.
"""
from __future__ import annotations

from dataclasses import dataclass, replace
from itertools import groupby
from typing import Sequence

from vet_tools import story_rows
from vet_tools.certificate import Flat, Kind, Node, SiteKind
from vet_tools.dex_code import DexCode, Instruction, Method, SourceLine
from vet_tools.report import Finding, Place
from vet_tools.shown import counted
from vet_tools.story import Story, StoryLine
from vet_tools.way_order import Turn, ordered
from vet_tools.way_words import OBJECT, SOURCE, VALUE, Names, Objects, call_name, field_of, method_name

# Rules by which a value or object stays, moves from register to register, or by which what was said is spread.
_FOLDED = frozenset({2, 3, 13, 14, 15, 16, 17, 18, 19, 20, 21})
# Rules by which a method is entered from a call.
_CALLS = frozenset({22, 23, 24, 28})
# Rules by which the system or the library begins to run a method: such a step is of no instruction of the app.
_BEGINS = frozenset({40, 41, 42, 43, 45})
# Rules by which an object is made; by which what leads to the value becomes longer, and shorter; and by which it ends.
_MADE, _PUTS, _GETS, _MAKES = frozenset({5, 34}), frozenset({6, 8, 14, 37, 38}), frozenset({7, 33}), frozenset({4, 35})
# What is not told of components and shared objects: there is one of each, so it does not matter how it came there.
_HOW = frozenset({Kind.POINTS, Kind.EXIT_POINTS})
_ALONE = frozenset({SiteKind.COMPONENT, SiteKind.SHARED})
# Rules by which an object is the value: the result of the call that takes it or is made of it, and a parameter. By the
# first set such an object leads to the value, by the second it has the label in a cell and goes on as an object.
_IS_VALUE = frozenset({35, 42, 43})
LONG = 4  # so many calls one behind the other are told as one

Sites = tuple[Flat | None, ...]


@dataclass(frozen=True)
class Step:
    """One step of a way: what happens there, and the code where there is some.

    `essential` are the steps of the value itself, and `passes` those that only go from a method into one that it calls.
    """
    place: Place
    says: str
    instruction: Instruction | None = None
    source_line: SourceLine | None = None
    method: Method | None = None
    essential: bool = True
    passes: bool = False

    @property
    def where(self) -> str:
        """The place, without an address where it is of no instruction."""
        return str(self.place) if self.instruction else self.place.method


@dataclass(frozen=True)
class _Told:
    """A line that is told: where it happens, what is said, and the method that is entered; `passed` are those of which
    is said that they are passed there."""
    number: int
    node: Node
    words: str
    essential: bool
    entered: Node | None = None
    passed: tuple[str, ...] = ()


@dataclass(frozen=True)
class _Value:
    """A line that says where the value is; whether it is the first; the objects that lead to it before, and there."""
    number: int
    first: bool
    before: Sites
    sites: Sites


class _Telling:
    """Tells one story over the code of an app."""

    def __init__(self, story: Story, finding: Finding, code: DexCode, names: Names) -> None:
        self.story, self.finding, self.code = story, finding, code
        self.objects = Objects(story, code, names)

    def steps(self) -> tuple[Step, ...]:
        """The way, from where the value is taken to where it goes."""
        values = self._values()
        self.objects.take_as(self.finding.source, (site for one in values for site in self._becomes(one)))
        control = self._control([one.number for one in values if self._is_begin(one)])
        objects = self._of_objects([one.number for one in values] + control)
        self.objects.told(site for number in sorted({*objects, *(one.number for one in values)})
                          for site in self._sites(self.story.line(number).row))
        told = [self._value(one) for one in values if one.first or self._tells(one.number)]
        told += [self._object(number) for number in objects]
        told += self._entries(control, told)
        by_number = {one.number: one for one in told}
        order = ordered(self.story, [Turn(one.number, one.node, one.entered) for one in told],
                        self._behind(values, objects))
        return tuple(self._step(one) for one in _together(_once([by_number[number] for number in order])))

    def _rule(self, number: int) -> int:
        return self.story.line(number).rule

    def _becomes(self, one: _Value) -> Sites:
        """The object that is the value from this line on, by the second set, where one is."""
        row = self.story.line(one.number).row
        return one.sites if row[0] == Kind.CELL_LABEL and self._rule(one.number) in _IS_VALUE else ()

    def _behind(self, values: Sequence[_Value], objects: Sequence[int]) -> list[tuple[int, int]]:
        """Pairs of a line by which an object is the value, and of one that tells later where that object is."""
        since = {site: one.number for one in values for site in self._becomes(one)}
        found = [(since.get(story_rows.held(self.story.line(number).row), number), number) for number in objects]
        return [(first, later) for first, later in found if first < later]

    def _is_begin(self, one: _Value) -> bool:
        """Is it to be told how control comes there, since no step says how the value or what holds it does: where it
        begins, is read from a static, or comes out of a cell of a component or shared object?"""
        if one.first or self._rule(one.number) == 9:
            return True
        out = self._rule(one.number) != 14 and any(
            line.row[0] in story_rows.CELLS for _, line in self._premises(one.number))
        return out and one.before[0] is not None and one.before[0][0] in _ALONE

    def _tells(self, number: int) -> bool:
        line = self.story.line(number)
        return line.rule not in _FOLDED and not (line.rule in (40, 41) and line.row[0] == Kind.COMP_TAINT)

    def _premises(self, number: int) -> list[tuple[int, StoryLine]]:
        return [(one, self.story.line(one)) for one in self.story.line(number).premises]

    def _values(self) -> list[_Value]:
        """The lines that say where the value is, the earliest first."""
        numbers = [len(self.story.lines)]
        while True:
            before = next((one for one, line in self._premises(numbers[-1]) if line.row[0] in story_rows.VALUES), None)
            if before is None:
                break
            numbers.append(before)
        found: list[_Value] = []
        sites: Sites = ()
        for number in numbers[::-1]:
            now = self._holders(self.story.line(number), sites)
            found.append(_Value(number, not found, sites, now))
            sites = now
        return found

    def _holders(self, line: StoryLine, sites: Sites) -> Sites:
        """The objects that lead to the value, the outermost first, by those that did before the line."""
        site = story_rows.changed(line.row)
        if line.row[0] in story_rows.LABELS:
            return () if site is None else (site,)
        if line.rule in _PUTS:
            sites = (site, *sites)
        elif line.rule == 39:
            sites = (site, *sites[1:])
        elif line.rule in _GETS:
            sites = sites[1:]
        elif line.rule in _MAKES:
            sites = ()
        elif site is not None:
            sites = (site, *sites[1:])
        count = story_rows.keys(line.row)
        return (*sites[:count], *([None] * (count - len(sites))))

    def _of_objects(self, numbers: list[int]) -> list[int]:
        """The lines that tell where the objects are on which these lines rest, without what goes nowhere."""
        found: dict[int, Flat] = {}
        todo = list(numbers)
        seen: set[int] = set()
        while todo:
            for number, line in self._premises(todo.pop()):
                if line.row[0] not in story_rows.OBJECTS or number in seen:
                    continue
                seen.add(number)
                site = story_rows.held(line.row)
                alone = site[0] in _ALONE and line.row[0] in _HOW
                if alone:
                    continue
                if line.rule in OBJECT:
                    found[number] = site
                todo.append(number)
        going = {site for number, site in found.items() if self._rule(number) not in _MADE}
        return [number for number, site in found.items()
                if self._rule(number) not in _MADE or site in going and not self.objects.is_value(site)]

    def _sites(self, row: Flat) -> list[Flat]:
        """The objects that a line may name."""
        if row[0] == Kind.CELL:
            return [story_rows.holder(row), story_rows.held(row)]
        if row[0] in story_rows.OBJECTS:
            return [story_rows.held(row)]
        site = story_rows.changed(row)
        return [] if site is None else [site]

    def _control(self, numbers: list[int]) -> list[int]:
        """The lines by which control comes to these lines, from call to call, or from the library."""
        found: dict[int, None] = {}
        for number in numbers:
            at: int | None = number
            while at is not None and at not in found:
                line = self.story.line(at)
                enters = line.row[0] == Kind.POINTS and line.rule == 23
                if enters or line.row[0] in (Kind.REACHED, Kind.CALLS) and line.rule in _CALLS | {43}:
                    found[at] = None
                at = self._before(at)
        return list(found)

    def _before(self, number: int) -> int | None:
        """The premise that says best how control came here."""
        order = (Kind.REACHED, Kind.CALLS, Kind.USES, Kind.POINTS)
        found = [(order.index(Kind(line.row[0])), one) for one, line in self._premises(number)
                 if line.row[0] in order]
        return min(found)[1] if found else None

    def _entries(self, control: list[int], told: list[_Told]) -> list[_Told]:
        """How methods are entered by these lines, where no told line has said so."""
        known = {one.entered for one in told if one.entered is not None}
        found: list[_Told] = []
        for number in control:
            line = self.story.line(number)
            into = story_rows.entered(line.row)
            if into in known:
                continue
            known.add(into)
            if line.rule == 43:
                site = next((story_rows.held(one.row) for _, one in self._premises(number)), None)
                found.append(self._told(number, "the library calls {method} on {object}", False,
                                        object=self.objects.the(site)))
            else:
                node = self._node(number)
                words = f"{method_name(self.code, node)} calls {method_name(self.code, into)}"
                found.append(_Told(number, node, words, False, into))
        return found

    def _first_node(self, number: int) -> Node | None:
        """The instruction at which a line follows: of its first premise that names one."""
        nodes = (story_rows.node(line.row) for _, line in self._premises(number))
        return next((one for one in nodes if one is not None), None)

    def _node(self, number: int) -> Node:
        """Where a line is told: at the instruction of its premises, or at the beginning of the method that it names."""
        line = self.story.line(number)
        rows = [line.row, *(one.row for _, one in self._premises(number))]
        node = story_rows.node(line.row) if line.row[0] == Kind.ARRIVE else (
            self._begun(line.row) if line.rule in _BEGINS else self._first_node(number))
        node = node or next((one for one in map(story_rows.entered, rows) if one is not None), None)
        if node is None:
            raise IndexError(number)
        return node

    def _begun(self, row: Flat) -> Node | None:
        """The beginning of the method that the system or the library begins, where a row says what it begins with."""
        return story_rows.entered(row) or self.objects.begun(story_rows.changed(row))

    def _value(self, one: _Value) -> _Told:
        line, source = self.story.line(one.number), self.finding.source
        if line.row[0] == Kind.ARRIVE:
            return self._told(one.number, "{value} goes to {sink}", True, value=source, sink=self.finding.sink)
        words = (SOURCE if one.first else VALUE).get(line.rule, f"rule {line.rule} brings {{it}} on")
        object_, carrier = (one.before, one.sites) if line.rule in _GETS else (one.sites, one.before)
        return self._told(one.number, words, True, value=source, object=self.objects.the((*object_, None)[0]),
                          it=self.objects.carried((*carrier, None)[0], source))

    def _object(self, number: int) -> _Told:
        row = self.story.line(number).row
        site = story_rows.held(row)
        holder = story_rows.holder(row) if row[0] == Kind.CELL else next(
            (story_rows.holder(line.row) for _, line in self._premises(number) if line.row[0] == Kind.CELL), None)
        return self._told(number, OBJECT[self._rule(number)], self.objects.is_value(site), it=self.objects.the(site),
                          new=self.objects.new(site), holder=self.objects.the(holder))

    def _told(self, number: int, words: str, essential: bool, **more: str) -> _Told:
        line, node = self.story.line(number), self._node(number)
        instruction = self.code.numbered[node.method].at(node.pc)
        into = self._begun(line.row) if line.rule in _BEGINS else story_rows.entered(line.row)
        ended = next((story_rows.entered(one.row) for _, one in self._premises(number)
                      if one.row[0] in (Kind.CALLED_BY, Kind.EXIT_TAINT, Kind.EXIT_POINTS, Kind.EXIT_LABEL)), None)
        says = words.format_map({
            "field": field_of(instruction), "method": method_name(self.code, into),
            "call": call_name(instruction.called if instruction else None),
            "from": method_name(self.code, ended or into), **more})
        return _Told(number, node, says, essential, into if line.rule in _CALLS | _BEGINS else None,
                     (more["it"],) if line.rule == 24 else ())

    def _step(self, one: _Told) -> Step:
        method, line = self.code.numbered[one.node.method], self.story.line(one.number)
        place, words = Place(str(method), one.node.pc), one.words
        if len(one.passed) > 1:
            words = f"{' and '.join(one.passed)} are passed to {method_name(self.code, one.entered)}"
        if line.rule in _BEGINS:
            return Step(place, words, method=method, essential=one.essential)
        return Step(place, words, method.at(one.node.pc), method.line_at(one.node.pc), method, one.essential,
                    line.rule in _CALLS)


def _once(found: list[_Told]) -> list[_Told]:
    """Without what was told before of the same step: by the second set an object is where it is read, line by line."""
    kept: dict[tuple[Node, str, Node | None], _Told] = {}
    for one in found:
        kept.setdefault((one.node, one.words, one.entered), one)
    return list(kept.values())


def _together(found: list[_Told]) -> list[_Told]:
    """One step for all that one call passes on, where these stand beside each other."""
    kept: list[_Told] = []
    for one in found:
        last = kept[-1] if kept else None
        if last and last.passed and one.passed and (last.node, last.entered) == (one.node, one.entered):
            kept[-1] = replace(last, passed=last.passed + one.passed, essential=last.essential or one.essential)
        else:
            kept.append(one)
    return kept


def way_of(story: Story, finding: Finding, code: DexCode, names: Names = Names()) -> tuple[Step, ...]:
    """The way that a story tells; none where it names methods that these files do not have."""
    try:
        return _Telling(story, finding, code, names).steps()
    except IndexError:
        return ()


def grouped(way: Sequence[Step]) -> list[tuple[Step, ...]]:
    """The steps of a way, where those that only go from call to call for long are one group."""
    found: list[tuple[Step, ...]] = []
    for passes, group in groupby(way, key=lambda step: step.passes):
        steps = tuple(group)
        found += [steps] if passes and len(steps) >= LONG else [(step,) for step in steps]
    return found


def said(steps: Sequence[Step]) -> str:
    """What is said of a group of steps."""
    return steps[0].says if len(steps) == 1 else f"{steps[0].says}, and on by {counted(len(steps) - 1, 'call')}"
