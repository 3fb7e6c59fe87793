"""What a JDK's `javap` says of classes: kind, parents, methods. It is the second word on the tables of the library."""
from __future__ import annotations

import re
import shutil
import subprocess
from collections.abc import Iterable
from dataclasses import dataclass, field
from pathlib import Path

HEADER = re.compile(r"(?P<words>(?:[a-z-]+ )*?)(?P<kind>class|interface) (?P<name>[\w.$]+)"
                    r"(?: extends (?P<extends>[\w.$, ]+?))?(?: implements (?P<implements>[\w.$, ]+?))? ?\{$")
MEMBER = re.compile(r"  (?P<words>(?:[a-z]+ )*)(?P<rest>.*);$")


class NoJavap(Exception):
    """There is no `javap` on this machine, or it gave nothing that can be read."""


@dataclass(frozen=True)
class Member:
    """A method or constructor (`<init>`) as the class file declares it, with its modifiers."""
    name: str
    proto: str
    words: frozenset[str]

    @property
    def open_to_apps(self) -> bool:
        """Whether an app class may override it: neither private, final nor static, and seen outside its package."""
        seen = bool({"public", "protected"} & self.words)
        return seen and self.name != "<init>" and not {"final", "static"} & self.words


@dataclass
class Shape:
    """One class: dotted name, `class` or `interface`, its modifiers, its direct parents, what it declares."""
    name: str
    kind: str
    words: frozenset[str]
    parents: tuple[str, ...]
    members: list[Member] = field(default_factory=list)

    @property
    def extensible(self) -> bool:
        """Whether an app can have a class below it."""
        if self.kind == "interface":
            return True
        return "final" not in self.words and self.made

    @property
    def made(self) -> bool:
        """Whether an app can call a constructor of it."""
        return any(m.name == "<init>" and {"public", "protected"} & m.words for m in self.members)


def without_generics(line: str) -> str:
    """The line without what stands in angle brackets."""
    depth, kept = 0, []
    for sign in line:
        depth += sign == "<"
        if depth == 0:
            kept.append(sign)
        depth -= sign == ">" and depth > 0
    return "".join(kept)


def header(line: str) -> Shape | None:
    """The class that a line of `javap` opens; None where it opens none."""
    found = HEADER.fullmatch(without_generics(line).replace("  ", " "))
    if not found:
        return None
    parents = [part.strip() for group in ("extends", "implements") for part in (found[group] or "").split(",")]
    return Shape(found["name"], found["kind"], frozenset(found["words"].split()), tuple(p for p in parents if p))


def member(shape: Shape, line: str, proto: str) -> Member | None:
    """The method of two lines of `javap`; None for fields and initialisers."""
    found = MEMBER.fullmatch(without_generics(line))
    if not found or "(" not in found["rest"]:
        return None
    name = found["rest"].split("(")[0].split()[-1]
    return Member("<init>" if name == shape.name else name, proto, frozenset(found["words"].split()))


def shapes_in(text: str) -> dict[str, Shape]:
    """All classes in what `javap -p -s` printed, by dotted name."""
    found: dict[str, Shape] = {}
    shape, before = None, ""
    for line in text.splitlines():
        if not line.startswith(" "):
            opened = header(line)
            if opened:
                shape = found[opened.name] = opened
        elif line.startswith("    descriptor: ") and shape:
            told = member(shape, before, line.removeprefix("    descriptor: "))
            if told:
                shape.members.append(told)
        before = line
    return found


def shapes(names: Iterable[str], jar: Path | None = None) -> dict[str, Shape]:
    """What `javap` knows of the dotted names, of a jar or of the JDK itself; names that it does not know are left out.
    Raises NoJavap where there is no `javap`."""
    program = shutil.which("javap")
    if program is None:
        raise NoJavap("there is no javap on this machine: install a JDK (Debian: openjdk-17-jdk-headless)")
    wanted, found = sorted(set(names)), {}
    source = ["-bootclasspath", str(jar)] if jar else []
    for start in range(0, len(wanted), 1000):
        told = subprocess.run([program, "-p", "-s", *source, *wanted[start:start + 1000]],
                              capture_output=True, text=True, check=False)
        found.update(shapes_in(told.stdout))
    return found
