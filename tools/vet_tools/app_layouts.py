"""Layouts of an APK: the methods that clicks come to, and the classes that stand in them, as `layouts.toml` takes them.

A device inflates whatever compiled XML an app hands to it, so each such file counts as a layout, whatever its folder.
Files to which nothing is clicked and in which no class stands are left out of the form.
"""
from __future__ import annotations

from dataclasses import dataclass

from vet_tools.app_manifest import NAME
from vet_tools.binary_xml import Element, Value
from vet_tools.class_names import INFLATED_FROM, check_name, descriptor, mentioned
from vet_tools.refusal import Refusal
from vet_tools.resource_table import ResourceTable
from vet_tools.shown import shown
from vet_tools.toml_text import checked_count, checked_form, checked_text, quoted, text_list

ON_CLICK = 0x0101026F


@dataclass(frozen=True)
class AppNames:
    """What a name in a file of the app is told by: its package, its resources, and the descriptors of its classes."""
    package: str
    resources: ResourceTable
    classes: set[str]


@dataclass(frozen=True)
class Layout:
    """A layout: `name` is its file in the APK, `clicks` are names of methods, `classes` descriptors; both ascend."""
    name: str
    clicks: list[str]
    classes: list[str]

    def table(self) -> str:
        """The table of the layout in `layouts.toml`."""
        checked_count(len(self.clicks), f"methods for clicks in {shown(self.name)}")
        checked_count(len(self.classes), f"classes in {shown(self.name)}")
        name = quoted(checked_text(self.name, "the name of a layout's file"))
        return f"\n[[layout]]\nname = {name}\n{text_list('clicks', self.clicks)}{text_list('classes', self.classes)}"


def read_layout(name: str, root: Element, about: AppNames) -> Layout:
    """The layout in a file of the APK."""
    clicks: set[str] = set()
    classes: set[str] = set()
    what = f"an onClick in {shown(name)}"
    for one in root.all():
        clicks |= {text for value in one.platform(ON_CLICK) for text in about.resources.texts(value, what)}
        classes |= _of_element(one, about)
    return Layout(name, _clicks(clicks, name), sorted(classes))


def styles(resources: ResourceTable) -> Layout:
    """The clicks that styles and themes give to whatever takes them, as those of one more layout."""
    name = "resources.arsc"
    what = "an onClick in a style"
    values = resources.styled.get(ON_CLICK, [])
    return Layout(name, _clicks({text for value in values for text in resources.texts(value, what)}, name), [])


def form(layouts: list[Layout]) -> bytes:
    """`layouts.toml`, of the layouts that have a click or a class."""
    kept = [it for it in layouts if it.clicks or it.classes]
    checked_count(len(kept), "layouts with clicks or classes")
    return checked_form("layouts.toml", "".join(it.table() for it in kept).lstrip("\n"))


def _clicks(texts: set[str], where: str) -> list[str]:
    for text in texts:
        check_name(text, f"the method of an onClick in {shown(where)},")
    return sorted(checked_text(text, f"the method of an onClick in {shown(where)},") for text in texts if text)


def _of_element(one: Element, about: AppNames) -> set[str]:
    """The classes that stand in an element: its own, and where another attribute tells which one is made."""
    found = {descriptor(one.tag)} if "." in one.tag else _short(one.tag, about)
    is_told = one.tag in ("view", "fragment")
    for text in {text for value in one.plain("class") + one.platform(NAME) for text in _told(value, about)}:
        found |= mentioned(about.package, text) & about.classes
        if is_told:
            found |= {descriptor(text)} if "." in text[1:] else _short(text, about)
    return found


def _told(value: Value, about: AppNames) -> set[str]:
    """The texts of an attribute that may name a class; what refers to nothing in the APK, or is no text, names none."""
    try:
        return about.resources.texts(value, "a class")
    except Refusal:
        return set()


def _short(name: str, about: AppNames) -> set[str]:
    """The app's classes that a name without a dot may mean: a device looks for it in packages of its own."""
    return {"L" + (front + name).replace(".", "/") + ";" for front in INFLATED_FROM} & about.classes
