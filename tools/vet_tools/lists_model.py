"""What the tables of the library say: categories, classes, rows. One type a thing, without reading or writing."""
from __future__ import annotations

from dataclasses import dataclass, field
from enum import Enum

OBJECT = "Ljava/lang/Object;"


@dataclass(frozen=True)
class Place:
    """A line of a table; 0 stands for the whole table."""
    file: str
    line: int

    def __str__(self) -> str:
        return f"{self.file}:{self.line}" if self.line else self.file


class TableFault(Exception):
    """A line of a table that is not of its form; the text says where and what is wrong."""

    def __init__(self, place: Place, text: str) -> None:
        super().__init__(f"{place}: {text}")


class Kind(Enum):
    """Whether an app can have a class below this one, and whether it can call a constructor: interfaces have none, a
    final class has no class below, and of a closed one the library alone makes objects."""
    INTERFACE = "interface"
    CLASS = "class"
    FINAL = "final"
    CLOSED = "closed"


class Default(Enum):
    """What a method without a row does."""
    BLANK = "blank"
    JOINED = "joined"
    MIXED = "mixed"


class Result(Enum):
    """What a library call gives back."""
    BLANK = "blank"
    SAME = "same"
    TAKEN = "taken"
    JOINED = "joined"
    SHARED = "shared"
    HANDED = "handed"


@dataclass(frozen=True)
class LibraryClass:
    """A class of the library; names are type descriptors."""
    name: str
    kind: Kind
    parents: tuple[str, ...]
    default: Default | None
    place: Place


@dataclass(frozen=True)
class Effects:
    """What one call does. Positions count the receiver as 0; in a static method the first argument is 0."""
    result: Result = Result.BLANK
    positions: tuple[int, ...] = ()
    shared: str = ""
    puts: tuple[tuple[int, int], ...] = ()
    stores: tuple[tuple[int, str], ...] = ()
    copies: tuple[tuple[int, int], ...] = ()
    source: str = ""
    sink: str = ""
    sink_positions: tuple[int, ...] = ()
    reflective: bool = False

    @property
    def wants_reason(self) -> bool:
        """Whether the row is one that a person must be able to judge."""
        return bool(self.source or self.sink or self.reflective)


@dataclass(frozen=True)
class MethodRow:
    """What a method does, with the reason that its line gives."""
    owner: str
    name: str
    proto: str
    static: bool
    effects: Effects
    reason: str
    place: Place

    @property
    def key(self) -> tuple[str, str, str, bool]:
        """What no two rows have in common."""
        return self.owner, self.name, self.proto, self.static

    def __str__(self) -> str:
        return f"{self.owner}->{self.name}{self.proto}"


@dataclass(frozen=True)
class CallbackRow:
    """A method that the library calls; some positions may be personal data."""
    owner: str
    name: str
    proto: str
    sources: tuple[tuple[int, str], ...]
    reason: str
    place: Place

    def __str__(self) -> str:
        return f"{self.owner}->{self.name}{self.proto}"


@dataclass(frozen=True)
class StaticRow:
    """A static field of the library, which may be personal data."""
    owner: str
    name: str
    type: str
    source: str
    reason: str
    place: Place


@dataclass
class Head:
    """What stands at the top of the lists."""
    rows: int = 0
    strict: bool = False
    large: str = ""
    categories: dict[str, str] = field(default_factory=dict)
    shared: dict[str, str] = field(default_factory=dict)
    platform: list[str] = field(default_factory=list)
    bundled: list[str] = field(default_factory=list)


@dataclass
class Tables:
    """All tables; classes by their names, in the order of the file."""
    head: Head
    classes: dict[str, LibraryClass]
    methods: list[MethodRow]
    callbacks: list[CallbackRow]
    statics: list[StaticRow]

    def above(self, name: str) -> list[str]:
        """The class and all listed ones above it, each once: itself, and then what is above each parent."""
        seen: dict[str, None] = {}
        todo = [name]
        while todo:
            here = todo.pop(0)
            if here not in seen and here in self.classes:
                seen[here] = None
                todo = list(self.classes[here].parents) + todo
        return list(seen)

    def default_of(self, name: str) -> Default | None:
        """The first default going upward."""
        found = (self.classes[above].default for above in self.above(name))
        return next((it for it in found if it), None)
