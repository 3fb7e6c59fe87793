"""How the steps of a way are said: the objects and methods by their Java names, and a sentence for each rule."""
from __future__ import annotations

from dataclasses import dataclass
from typing import Iterable

from vet_tools import story_rows
from vet_tools.certificate import Flat, Kind, Node, SiteKind
from vet_tools.dex_code import DexCode, Instruction, MethodRef
from vet_tools.forms import Component
from vet_tools.java_names import java_method, java_place, java_type, split_types
from vet_tools.story import Story

# What is said of the value, by the rule (docs/RULES.md) by which it comes where it is. `{it}` is the value, or the
# object that holds it, `{value}` the value alone, `{field}` the field or element, `{object}` the object that is changed
# or read, `{method}` the method that is entered, `{call}` the one that is called, `{from}` the one that has run.
VALUE = {
    4: "a value is computed from {value}",
    5: "{value} is the size of a new array",
    6: "{it} goes into a new array",
    7: "{it} is read from {field} of {object}",
    8: "{it} is stored in {field} of {object}",
    9: "{it} is read from {field}",
    10: "{it} is stored in {field}",
    11: "{it} is thrown",
    12: "{it} is returned",
    24: "{it} is passed to {method}",
    25: "{it} comes back from {from}",
    26: "{it} is thrown out of {from}",
    29: "{from}, which runs before, has put {value} into {object}",
    30: "{it} is handed to the library by {call}",
    32: "{it} comes back from {call}",
    33: "{it} is taken out of {object} by {call}",
    35: "the result of {call} is made of {value}",
    36: "{call} gives {object}, which holds {value}",
    37: "{it} is put into {object} by {call}",
    38: "{it} is put into {object} by {call}",
    39: "what holds {value} is copied into {object} by {call}",
    40: "the system calls {method} with {it}",
    41: "{method} runs on {object}, which holds {value}",
    42: "{method} runs on {object}, which holds {value}",
    43: "the library calls {method} on {object}, which holds {value}",
    45: "the library passes {it} to {method}",
    46: "{it} is returned to the library by {from}",
    48: "{it} comes back from {call}, since the library or a component has it",
}
# What is said where the value begins.
SOURCE = {
    9: "{value} is read from {field}",
    35: "{value} is taken by {call}",
    40: "the system calls {method} with {value}",
    42: "the system calls {method} with {value}",
    43: "the library calls {method} with {value}",
}
# The same of an object; `{it}` is the object, `{holder}` the one that holds it.
OBJECT = {
    5: "{new} is made",
    6: "{it} goes into a new array",
    7: "{it} is read from {field} of {holder}",
    8: "{it} is stored in {field} of {holder}",
    9: "{it} is read from {field}",
    10: "{it} is stored in {field}",
    11: "{it} is thrown",
    12: "{it} is returned",
    23: "{method} is called on {it}",
    24: "{it} is passed to {method}",
    25: "{it} comes back from {from}",
    26: "{it} is thrown out of {from}",
    30: "{it} is handed to the library by {call}",
    32: "{it} comes back from {call}",
    33: "{it} is taken out of {holder} by {call}",
    34: "{call} gives {new}",
    36: "{call} gives {it}",
    37: "{it} is put into {holder} by {call}",
    38: "{it} is put into {holder} by {call}",
    39: "{it} is copied into {holder} by {call}",
    43: "the library calls {method} on {it}",
    45: "the library passes {it} to {method}",
    46: "{it} is returned to the library by {from}",
    48: "{it} comes back from {call}, since the library was handed it",
}


@dataclass(frozen=True)
class Names:
    """What the forms call the components and the shared objects, in the order of their numbers."""
    components: tuple[Component, ...] = ()
    shared: tuple[str, ...] = ()


def type_of(instruction: Instruction | None) -> str:
    """The type of which an instruction makes an object, as the DEX file has it; empty where none is known."""
    if instruction is None:
        return ""
    return instruction.called.result if instruction.called else instruction.named


def field_of(instruction: Instruction | None) -> str:
    """The field that an instruction names, as Java writes it; else an element."""
    if instruction is None or instruction.text[:4] not in ("iget", "iput", "sget", "sput"):
        return "an element"
    owner, _, rest = instruction.named.partition("->")
    kind = "static field" if instruction.text[0] == "s" else "field"
    return f"the {kind} {java_type(owner)}.{rest.partition(':')[0]}"


class Objects:
    """The objects of a way: what each is called, by its site."""

    def __init__(self, story: Story, code: DexCode, names: Names) -> None:
        self.story, self.code, self.names = story, code, names
        self._parameters: dict[Flat, str] = {}
        self._begun: dict[Flat, Node] = {}
        for line in story.lines:
            if line.row[0] == Kind.POINTS and 40 <= line.rule <= 45:
                self._parameter(story_rows.held(line.row), story_rows.entered(line.row))
        self._said: dict[Flat, str] = {}
        self._values: dict[Flat, str] = {}

    def _parameter(self, site: Flat, node: Node | None) -> None:
        if site[0] != SiteKind.PARAMETER or node is None or site[1:-1] != node.context:
            return
        self._begun.setdefault(site, node)
        method = self.code.numbered[node.method]
        kinds = split_types(method.descriptor)[0]
        kinds = kinds if method.static else (method.class_name, *kinds)
        if site[-1] < len(kinds):
            self._parameters.setdefault(site, kinds[site[-1]])

    def begun(self, site: Flat | None) -> Node | None:
        """The beginning of the method that is begun with the object of this site as a parameter."""
        return None if site is None else self._begun.get(site)

    def take_as(self, value: str, sites: Iterable[Flat | None]) -> None:
        """Sets that the objects of these sites are the value itself."""
        self._values.update((site, value) for site in sites if site is not None)

    def is_value(self, site: Flat | None) -> bool:
        """Is an object of this site the value itself?"""
        return site in self._values

    def class_of(self, site: Flat) -> str:
        """The class of a site as Java writes it; empty where it is not known."""
        if site[0] in (SiteKind.NODE, SiteKind.MADE):
            kind = type_of(self.code.numbered[site[-2]].at(site[-1]))
        elif site[0] == SiteKind.COMPONENT:
            kind = self.names.components[site[1]].class_name if site[1] < len(self.names.components) else ""
        else:
            kind = self._parameters.get(site, "")
        return java_type(kind) if kind else ""

    def told(self, sites: Iterable[Flat]) -> None:
        """Sets how the objects of these sites are called: those of one class are numbered."""
        of_class: dict[str, list[Flat]] = {}
        for site in sites:
            known = of_class.setdefault(self._plain(site), [])
            if site not in known and not self.is_value(site):
                known.append(site)
        for name, known in of_class.items():
            for number, site in enumerate(known, 1):
                self._said[site] = f"{name} ({number})" if len(known) > 1 else name

    def _plain(self, site: Flat) -> str:
        if site[0] == SiteKind.SHARED:
            name = self.names.shared[site[1]] if site[1] < len(self.names.shared) else ""
            return f"shared object {name}".rstrip()
        kind = self.class_of(site) or "object"
        if site[0] == SiteKind.COMPONENT and site[1] < len(self.names.components):
            return f"{self.names.components[site[1]].kind} {kind}"
        return kind

    def the(self, site: Flat | None) -> str:
        """How an object is called, once it was told."""
        if site is None:
            return "an object"
        return self._values.get(site) or f"the {self._said.get(site) or self._plain(site)}"

    def carried(self, site: Flat | None, value: str) -> str:
        """The value, or the object of this site that holds it."""
        return value if site is None or self.is_value(site) else f"{self.the(site)} that holds {value}"

    def new(self, site: Flat) -> str:
        """How an object is called where it is made."""
        name = self._said.get(site) or self._plain(site)
        return f"{'an' if name[:1].lower() in 'aeiou' else 'a'} {name}"


def method_name(code: DexCode, node: Node | None) -> str:
    """The method of an activation as Java writes it."""
    return "a method" if node is None else java_place(code.numbered[node.method])


def call_name(ref: MethodRef | None) -> str:
    """The method that is called, as Java writes it."""
    return "the call" if ref is None else java_method(ref, False)
