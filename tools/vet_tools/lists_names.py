"""Names in the tables: simple and full names of classes, types of signatures, and alternatives in braces."""
from __future__ import annotations

import itertools
import re
from collections.abc import Iterable

PRIMITIVES = {"void": "V", "boolean": "Z", "byte": "B", "char": "C", "short": "S", "int": "I", "long": "J",
              "float": "F", "double": "D"}
FULL = re.compile(r"[A-Za-z_][\w]*(\.[A-Za-z_][\w$]*)+")
SIGNATURE = re.compile(r"(?:(?P<static>static) )?(?:(?P<result>[^\s()]+) )?(?P<name>[\w$<>]+)\((?P<types>[^()]*)\)")
CHOICE = re.compile(r"\{([^{}]*)\}")


class NameFault(Exception):
    """A name that no listed class has, or several have, or text that is no signature."""


def descriptor_of(dotted: str) -> str:
    """`java.util.Map$Entry` as a type descriptor."""
    return "L" + dotted.replace(".", "/") + ";"


def dotted_of(descriptor: str) -> str:
    """The dotted name of a class's descriptor."""
    return descriptor[1:-1].replace("/", ".")


def written_out(line: str) -> list[str]:
    """The line with each `{a|b}` replaced by each of its choices; all groups multiply."""
    parts = CHOICE.split(line)
    choices = [part.split("|") if i % 2 else [part] for i, part in enumerate(parts)]
    return ["".join(chosen) for chosen in itertools.product(*choices)]


class Names:
    """The listed classes by their simple names (what stands behind the package)."""

    def __init__(self, dotted: Iterable[str]) -> None:
        self.full = set(dotted)
        self.simple: dict[str, list[str]] = {}
        for name in sorted(self.full):
            self.simple.setdefault(name.rsplit(".", 1)[-1], []).append(name)

    def class_of(self, text: str, package: str) -> str:
        """The descriptor of the class that `text` means in a section of the package: a full name; else the class of
        the package, of java.lang, or the only one of that name. Raises NameFault."""
        if "." in text:
            if not FULL.fullmatch(text):
                raise NameFault(f"{text} is no name of a class")
            return descriptor_of(text)
        for owner in (package, "java.lang"):
            if f"{owner}.{text}" in self.full:
                return descriptor_of(f"{owner}.{text}")
        found = self.simple.get(text, [])
        if len(found) == 1:
            return descriptor_of(found[0])
        if found:
            raise NameFault(f"{text} may be {' or '.join(found)}: write the whole name")
        raise NameFault(f"no listed class is named {text}: write the whole name, or list it in classes.txt")

    def type_of(self, text: str, package: str) -> str:
        """The descriptor of a type as Java writes it. Raises NameFault."""
        base = text
        while base.endswith("[]"):
            base = base[:-2]
        arrays = "[" * ((len(text) - len(base)) // 2)
        return arrays + (PRIMITIVES.get(base) or self.class_of(base, package))

    def signature(self, text: str, package: str) -> tuple[str, str, bool]:
        """Name, descriptor and whether static of `static Result name(Types)` or `new(Types)`. Raises NameFault."""
        found = SIGNATURE.fullmatch(text)
        if not found or (found["name"] == "new") != (found["result"] is None):
            raise NameFault(f"{text} is no signature: `Result name(Types)` or `new(Types)`")
        types = [self.type_of(part.strip(), package) for part in found["types"].split(",") if part.strip()]
        if "V" in types:
            raise NameFault(f"{text} has a parameter of type void")
        made = found["name"] == "new"
        result = "V" if made else self.type_of(found["result"], package)
        return "<init>" if made else found["name"], f"({''.join(types)}){result}", bool(found["static"])


def parameters(proto: str) -> list[str]:
    """The types of a method descriptor's parameters."""
    return re.findall(r"\[*(?:[BCDFIJSZ]|L[^;]+;)", proto[1:proto.index(")")])


def is_reference(type_name: str) -> bool:
    """Whether a type descriptor is that of a class or an array."""
    return type_name[:1] in ("L", "[")
