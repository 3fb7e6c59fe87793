"""Names of classes, as manifests and layouts write them, and the type descriptors that the forms take."""
from __future__ import annotations

from vet_tools.refusal import Refusal
from vet_tools.shown import shown

LONGEST = 255
# Where a device looks for an element of a layout whose name has no dot.
INFLATED_FROM = ("android.widget.", "android.webkit.", "android.app.", "android.view.")


def check_name(name: str, what: str) -> None:
    """Refuses a name that can't be written so that it has the bytes which it has in a DEX file.

    A DEX file spells what is above U+FFFF by two surrogates of three bytes each, which no TOML text can hold; U+FFFD
    stands where the bytes of the APK were no text.
    """
    if any(c == "\ufffd" or c > "\uffff" or "\ud800" <= c <= "\udfff" for c in name):
        raise Refusal(f"{what} {shown(name)} has characters that can't be carried: review this app by hand")


def descriptor(name: str) -> str:
    """The type descriptor of a class that is named in full, as `a.b.C` or `a/b/C`: `La/b/C;`."""
    check_name(name, "the class")
    found = "L" + name.replace(".", "/") + ";"
    if not 3 <= len(found.encode()) <= LONGEST:
        raise Refusal(f"the class {shown(name)} has more than the {LONGEST} bytes that a name may have, or none")
    return found


def full_name(package: str, name: str) -> str:
    """The class that a component's name means: the package comes before a name that begins with a dot or has none."""
    if name.startswith("."):
        return package + name
    return name if "." in name else f"{package}.{name}"


def mentioned(package: str, text: str) -> set[str]:
    """The descriptors of classes that a text may mean: in full, behind the package as `.C`, or as `a.b/.C`."""
    names = {text}
    if "/" in text:
        before, _, behind = text.partition("/")
        names.add(full_name(before, behind) if behind.startswith(".") else behind)
    if text.startswith("."):
        names.add(package + text)
    return {"L" + name.replace(".", "/") + ";" for name in names if name}
