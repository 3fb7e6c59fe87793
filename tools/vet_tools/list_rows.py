"""Rows for lists.toml that missing classes and methods ask for, as TOML to be looked through and pasted."""
from __future__ import annotations

from vet_tools.dex_code import MethodRef
from vet_tools.explanation import OBJECT, Explanation, MissingClass
from vet_tools.forms import toml_text

HEAD = """\
# Rows for lists.toml. They are careful ones: each argument goes into the receiver, and all of
# them into the result. Look each through before it is pasted: a method that gives personal data
# needs a `source`, one that sends a `sink`, one that keeps what it is given elsewhere `stores`,
# one that runs a method by its name `reflective`; and a class needs its true parents.
"""


def rows(found: Explanation) -> str:
    """All rows that the missing classes ask for; empty where nothing is missing. Ends with a line feed."""
    parts: list[str] = []
    classes: set[str] = set()
    methods: set[tuple[str, str, str, bool]] = set()
    for group in found.missing:
        if not group.listed and group.name not in classes:
            classes.add(group.name)
            parts.append(class_row(group, found.object_listed))
        for method in group.methods.values():
            key = (group.name, method.ref.name, method.ref.descriptor, method.ref.static)
            if key not in methods:
                methods.add(key)
                parts.append(method_row(group, method.ref))
    return HEAD + "\n" + "\n".join(parts) if parts else ""


def class_row(group: MissingClass, object_listed: bool) -> str:
    """The row of a class that the lists do not have."""
    name = toml_text(group.name)
    if name is None:
        return f"# {group.name} is no UTF-8, so no row can name it.\n"
    text = f"[[class]]\nname = {name}\n"
    return text + (f'parents = ["{OBJECT}"]\n' if object_listed and group.name != OBJECT else "")


def method_row(group: MissingClass, ref: MethodRef) -> str:
    """The careful row of a method: what `mixed` says as a default, written out."""
    texts = [toml_text(text) for text in (group.name, ref.name, ref.descriptor)]
    if None in texts:
        return f"# {group.name}->{ref.name}{ref.descriptor} is no UTF-8, so no row can name it.\n"
    lines = [f"# or of {other}, where the object's class is another one" for other in group.others]
    lines += ["[[method]]", *(f"{key} = {text}" for key, text in zip(("class", "name", "proto"), texts))]
    if ref.static:
        lines.append("static = true")
    if ref.result != "V" and ref.positions:
        lines += ['result = "joined"', f"from = {list(range(ref.positions))}"]
    if not ref.static and ref.parameters:
        lines.append(f"puts = {[[position, 0] for position in range(1, ref.positions)]}")
    return "\n".join(lines) + "\n"
