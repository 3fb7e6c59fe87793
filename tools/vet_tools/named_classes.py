"""Classes of an app that its manifest and resources name elsewhere than as components and in layouts.

Such are a backup agent, a component factory, an instrumentation, the classes of preferences, menus and navigation. A
text counts as a name where the app has a class of that name.
"""
from __future__ import annotations

from typing import Iterator

from vet_tools.app_layouts import AppNames
from vet_tools.binary_xml import Attribute, Element
from vet_tools.class_names import full_name, mentioned
from vet_tools.refusal import Refusal


def named_classes(manifest: Element, others: dict[str, Element], about: AppNames, known: set[str]) -> dict[str, str]:
    """Each class that is named and not `known`, with where it is first named, in a person's words; ascending."""
    found: dict[str, str] = {}
    for where, texts in _texts(manifest, others, about):
        for text in texts:
            for one in mentioned(about.package, text) & about.classes - known:
                found.setdefault(one, where)
    return dict(sorted(found.items()))


def _texts(manifest: Element, others: dict[str, Element], about: AppNames) -> Iterator[tuple[str, set[str]]]:
    for one in manifest.all():
        for attribute in one.attributes:
            texts = _of_attribute(attribute, about)
            # Where a manifest names a class, a name without a dot is one of the package.
            texts |= {full_name(about.package, text) for text in texts if text}
            yield f"{attribute.name} in AndroidManifest.xml", texts
    for name, root in others.items():
        for one in root.all():
            for attribute in one.attributes:
                yield f"{attribute.name} in {name}", _of_attribute(attribute, about)
            yield name, set(one.texts)
    yield "resources.arsc", set(about.resources.all_texts())


def _of_attribute(attribute: Attribute, about: AppNames) -> set[str]:
    try:
        return about.resources.texts(attribute.value, attribute.name)
    except Refusal:
        return set()
