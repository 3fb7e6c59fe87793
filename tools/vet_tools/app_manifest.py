"""The Android manifest of an APK: package, application and components, as `manifest.toml` takes them."""
from __future__ import annotations

from dataclasses import dataclass, field
from enum import Enum

from vet_tools.binary_xml import Element, Value
from vet_tools.class_names import descriptor, full_name
from vet_tools.refusal import Refusal
from vet_tools.resource_table import ResourceTable
from vet_tools.shown import shown
from vet_tools.toml_text import checked_count, checked_form, checked_text, quoted, table, text_list

# Numbers of the platform's attributes, as `android.R.attr` has them.
NAME = 0x01010003
TARGET_ACTIVITY = 0x01010202


class Kind(Enum):
    """The kinds of components, by the elements that name them."""
    ACTIVITY = "activity"
    SERVICE = "service"
    RECEIVER = "receiver"
    PROVIDER = "provider"


@dataclass
class Manifest:
    """What the manifest says: classes are descriptors, components stand in the order of the file and each once."""
    package: str
    application: str | None = None
    components: dict[str, Kind] = field(default_factory=dict)
    parts: list[str] = field(default_factory=list)

    def classes(self) -> set[str]:
        """The classes that a device makes objects of by what the manifest says: application and components."""
        return {*self.components, *([self.application] if self.application else [])}

    def form(self, dex_files: int, named: list[str]) -> bytes:
        """`manifest.toml`, with the key `named` where a class of the app is named elsewhere."""
        checked_count(len(self.components), "components")
        checked_count(len(named), "classes that are named elsewhere than as components")
        text = f"package = {quoted(checked_text(self.package, 'the package'))}\ndex_files = {dex_files}\n"
        if self.application:
            text += f"application = {quoted(self.application)}\n"
        if named:
            text += text_list("named", [checked_text(it, "the named class") for it in named])
        for name, kind in self.components.items():
            text += table("component", [("kind", kind.value), ("class", name)])
        return checked_form("manifest.toml", text)


def read_manifest(root: Element, resources: ResourceTable) -> Manifest:
    """What the manifest with this root says; refused is what no device installs, and what the form has no place for."""
    if root.tag != "manifest":
        raise Refusal(f"AndroidManifest.xml begins with {shown(root.tag)} in place of manifest")
    found = Manifest(_one(root.plain("package"), "the package of the manifest", resources))
    applications = [it for it in root.children if it.tag == "application"]
    if applications:
        # A device leaves out all but the first.
        _application(applications[0], found, resources)
    found.parts = _parts(root, applications, resources)
    return found


def _one(values: list[Value], what: str, resources: ResourceTable) -> str:
    texts = {text for value in values for text in resources.texts(value, what)}
    if len(texts) != 1 or len(values) > 1 or "" in texts:
        raise Refusal(f"{what} is {'there more than once' if len(texts) > 1 else 'missing'} in AndroidManifest.xml")
    return texts.pop()


def _application(element: Element, found: Manifest, resources: ResourceTable) -> None:
    names = element.platform(NAME)
    if names:
        found.application = descriptor(full_name(found.package, _one(names, "the name of the application", resources)))
    for child in element.children:
        if child.tag == "activity-alias":
            kind, number = Kind.ACTIVITY, TARGET_ACTIVITY
        elif child.tag in [it.value for it in Kind]:
            kind, number = Kind(child.tag), NAME
        else:
            continue
        name = _one(child.platform(number), f"the class of a component ({child.tag})", resources)
        _add(found, kind, descriptor(full_name(found.package, name)))


def _add(found: Manifest, kind: Kind, name: str) -> None:
    """Takes a component; one that is named again, by an alias or another element, is the same one."""
    earlier = found.components.setdefault(name, kind)
    if earlier != kind:
        raise Refusal(f"the manifest names {shown(name)} as {earlier.value} and as {kind.value}, and the form takes one"
                      " of them")
    if name == found.application:
        raise Refusal(f"the manifest names {shown(name)} as application and as {kind.value}, and the form takes one of"
                      " them")


def _parts(root: Element, applications: list[Element], resources: ResourceTable) -> list[str]:
    """What says that the app has parts besides this APK, each as a few words for a person."""
    found = []
    for name in ("split", "configForSplit"):
        if root.plain(name):
            found.append(f"this APK is itself a part ({name} in the manifest)")
    required = [it for it in root.attributes + [a for one in applications for a in one.attributes]
                if it.name in ("isSplitRequired", "requiredSplitTypes")]
    if any(it.value.data for it in required):
        found.append("the app needs further parts (split APKs)")
    if any(it.tag == "uses-split" for it in root.all()):
        found.append("this part needs another one (uses-split in the manifest)")
    for one in root.all():
        if one.tag == "meta-data" and any(v.text == "com.android.vending.splits.required" for v in one.platform(NAME)):
            found.append("the app needs further parts (com.android.vending.splits.required)")
    return sorted(set(found))
