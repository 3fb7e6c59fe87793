"""The forms of an app's folder, as far as explanations need them: manifest, layouts, declaration and lists.

`vet` tests the forms; here they are read for what they say (`docs/FORMATS.md`). Names become what `vet` prints for
them. What can't be read is a `FormFault`, in one sentence.
"""
from __future__ import annotations

import hashlib
import tomllib
from dataclasses import dataclass
from pathlib import Path
from typing import Any, Iterable, Iterator

from vet_tools.dex_code import MethodRef
from vet_tools.report import unprinted
from vet_tools.shown import printed

FORMS = ("manifest.toml", "layouts.toml", "declaration.toml", "lists.toml")
COMPONENTS = ("activity", "service", "receiver")


class FormFault(Exception):
    """A form could not be read; the text is one sentence that says what to do."""


@dataclass(frozen=True)
class Component:
    """A component that runs: `application`, `activity`, `service` or `receiver`, and its class."""
    kind: str
    class_name: str


@dataclass(frozen=True)
class Manifest:
    """The package, the number of DEX files, the components in the order of certificates, and the providers."""
    package: str
    dex_files: int
    components: tuple[Component, ...]
    providers: tuple[str, ...]


@dataclass(frozen=True)
class ListRow:
    """A row for a library method; source and sink are categories or empty."""
    class_name: str
    name: str
    descriptor: str
    static: bool
    source: str
    sink: str
    positions: tuple[int, ...]
    reflective: bool

    def __str__(self) -> str:
        return f"{self.class_name}->{self.name}{self.descriptor}"


@dataclass(frozen=True)
class Callback:
    """A callback row: the method, and which of its arguments are personal data of which category."""
    class_name: str
    name: str
    descriptor: str
    sources: tuple[tuple[int, str], ...]

    def __str__(self) -> str:
        return f"{self.class_name}->{self.name}{self.descriptor}"


class Lists:
    """The office's lists."""

    def __init__(self, tree: dict[str, Any]) -> None:
        self.categories = tuple(str(name) for name in tree.get("categories", []))
        self.shared = tuple(_printed(one["name"]) for one in tree.get("shared", []))
        self.parents: dict[str, tuple[str, ...]] = {}
        self.defaults: dict[str, str] = {}
        for one in tree.get("class", []):
            name = _printed(one["name"])
            self.parents[name] = tuple(_printed(up) for up in one.get("parents", []))
            if "default" in one:
                self.defaults[name] = one["default"]
        self.rows = tuple(_row(one) for one in tree.get("method", []))
        self.callbacks = tuple(_callback(one) for one in tree.get("callback", []))
        self._by_key = {(row.class_name, row.name, row.descriptor, row.static): row for row in self.rows}

    def above(self, name: str) -> list[str]:
        """A listed class and what stands above it: itself, then above each parent, each once."""
        found: dict[str, None] = {}
        todo = [name]
        while todo:
            one = todo.pop()
            if one in self.parents and one not in found:
                found[one] = None
                todo.extend(reversed(self.parents[one]))
        return list(found)

    def row_for(self, libraries: Iterable[str], ref: MethodRef) -> ListRow | None:
        """The row that counts for a call that comes to these library classes, or `None`."""
        for one in self._walk(libraries):
            row = self._by_key.get((one, ref.name, ref.descriptor, ref.static))
            if row:
                return row
        return None

    def has_summary(self, libraries: Iterable[str], ref: MethodRef) -> bool:
        """Do the lists say anything of the call: by a row, or by a default?"""
        names = list(libraries)
        return self.row_for(names, ref) is not None or any(one in self.defaults for one in self._walk(names))

    def _walk(self, libraries: Iterable[str]) -> Iterator[str]:
        for library in libraries:
            yield from self.above(library)


def _printed(name: str) -> str:
    return printed(name.encode("utf-8"))


def _row(one: dict[str, Any]) -> ListRow:
    return ListRow(_printed(one["class"]), _printed(one["name"]), _printed(one["proto"]),
                   bool(one.get("static", False)), one.get("source", ""), one.get("sink", ""),
                   tuple(one.get("positions", ())), bool(one.get("reflective", False)))


def _callback(one: dict[str, Any]) -> Callback:
    sources = tuple((int(position), str(category)) for position, category in one.get("sources", []))
    return Callback(_printed(one["class"]), _printed(one["name"]), _printed(one["proto"]), sources)


def _tree(folder: Path, name: str) -> dict[str, Any]:
    try:
        return tomllib.loads((folder / name).read_bytes().decode("utf-8"))
    except OSError as fault:
        raise FormFault(f"{name} could not be read ({fault.strerror}); "
                        "vet check says which file is at fault.") from None
    except (ValueError, RecursionError):
        raise FormFault(f"{name} is no TOML; vet check says which file is at fault.") from None


def lists_of(folder: Path) -> Lists:
    """The lists of an app's folder. Raises `FormFault`."""
    tree = _tree(folder, "lists.toml")
    try:
        return Lists(tree)
    except (KeyError, TypeError, ValueError, AttributeError):
        raise FormFault("lists.toml is not of its form; vet check says which key is at fault.") from None


def manifest_of(folder: Path) -> Manifest:
    """The manifest of an app's folder. Raises `FormFault`."""
    tree = _tree(folder, "manifest.toml")
    try:
        running = [Component("application", _printed(tree["application"]))] if "application" in tree else []
        rows = [Component(str(one["kind"]), _printed(one["class"])) for one in tree.get("component", [])]
        running += [one for one in rows if one.kind in COMPONENTS]
        providers = tuple(one.class_name for one in rows if one.kind not in COMPONENTS)
        return Manifest(_printed(tree["package"]), int(tree["dex_files"]), tuple(running), providers)
    except (KeyError, TypeError, ValueError, AttributeError):
        raise FormFault("manifest.toml is not of its form; vet check says which key is at fault.") from None


def clicks_of(folder: Path) -> tuple[str, ...]:
    """The names of methods to which clicks come, each once, in the order of the layouts. Raises `FormFault`."""
    tree = _tree(folder, "layouts.toml")
    try:
        names = [_printed(name) for one in tree.get("layout", []) for name in one.get("clicks", [])]
    except (TypeError, AttributeError):
        raise FormFault("layouts.toml is not of its form; vet check says which key is at fault.") from None
    return tuple(dict.fromkeys(names))


def layouts_with(folder: Path, class_name: str) -> list[str]:
    """The names of the layouts in which this class stands, as they are printed. Raises `FormFault`."""
    tree = _tree(folder, "layouts.toml")
    try:
        return [_printed(one["name"]) for one in tree.get("layout", [])
                if class_name in map(_printed, one.get("classes", []))]
    except (KeyError, TypeError, AttributeError):
        raise FormFault("layouts.toml is not of its form; vet check says which key is at fault.") from None


def declared_of(folder: Path) -> tuple[tuple[str, str], ...]:
    """The pairs of source and sink that the developer declares. Raises `FormFault`."""
    tree = _tree(folder, "declaration.toml")
    try:
        return tuple((_printed(one["source"]), _printed(one["sink"])) for one in tree.get("use", []))
    except (KeyError, TypeError, AttributeError):
        raise FormFault("declaration.toml is not of its form; vet check says which key is at fault.") from None


def dex_paths(folder: Path, count: int) -> list[Path]:
    """`classes.dex`, `classes2.dex` and so on: as many as the manifest says, at most 16."""
    return [folder / ("classes.dex" if number == 1 else f"classes{number}.dex")
            for number in range(1, min(max(count, 1), 16) + 1)]


def digest_of(folder: Path, dex_files: int) -> bytes:
    """The digest of the files as a certificate has it: each with its length in front as four bytes."""
    whole = hashlib.sha256()
    for path in [*(folder / name for name in FORMS), *dex_paths(folder, dex_files)]:
        try:
            data = path.read_bytes()
        except OSError as fault:
            name = printed(path.name.encode())
            raise FormFault(f"{name} could not be read ({fault.strerror}); hand in all files of the app.") from None
        whole.update(len(data).to_bytes(4, "little"))
        whole.update(data)
    return whole.digest()


def toml_text(name: str) -> str | None:
    """A printed name as a TOML string with its quotes, or `None` where it is no UTF-8, so no form can name it."""
    try:
        text = unprinted(name).decode("utf-8")
    except UnicodeDecodeError:
        return None
    signs = []
    for sign in text:
        code = ord(sign)
        if sign in '"\\':
            signs.append("\\" + sign)
        elif 32 <= code <= 126:
            signs.append(sign)
        else:
            signs.append(f"\\u{code:04X}" if code < 0x10000 else f"\\U{code:08X}")
    return '"' + "".join(signs) + '"'
