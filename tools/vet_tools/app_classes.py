"""The classes that an app's DEX files have: the names to which the tables of their headers lead."""
from __future__ import annotations

import struct

from vet_tools.progress import Progress
from vet_tools.refusal import Refusal

# Where the header of a DEX file says how many strings, types and classes there are, and behind it from where on.
STRINGS, TYPES, CLASSES = 0x38, 0x40, 0x60
# How many bytes a row of each table has; a string's is where its text stands, a type's and a class's begin with a
# number of the table before.
STRING_ROW, TYPE_ROW, CLASS_ROW = 4, 4, 32


def classes_of(files: dict[str, bytes], progress: Progress) -> set[str]:
    """The descriptors of the classes in the DEX files, by their name."""
    found: set[str] = set()
    for name, raw in files.items():
        progress.say(f"reading names of classes in {name}")
        found |= _in_one(raw, name)
    return found


def _in_one(raw: bytes, where: str) -> set[str]:
    try:
        count, = struct.unpack_from("<I", raw, CLASSES)
        return {_text(_name(raw, row)) for row in range(count)}
    except (struct.error, ValueError) as error:
        raise Refusal(f"{where} can't be read: it is damaged ({type(error).__name__})") from None


def _name(raw: bytes, row: int) -> bytes:
    """The name of the class of this row, as it stands in the file."""
    kind = _row(raw, CLASSES, CLASS_ROW, row)
    at = _row(raw, STRINGS, STRING_ROW, _row(raw, TYPES, TYPE_ROW, kind))
    while raw[at:at + 1] >= b"\x80":  # before the text its length stands, seven bits a byte
        at += 1
    return raw[at + 1:raw.index(0, at + 1)]


def _row(raw: bytes, table: int, width: int, row: int) -> int:
    """The number with which a row of a table begins."""
    count, begin = struct.unpack_from("<2I", raw, table)
    if row >= count:
        raise ValueError("there is no such row")
    number, = struct.unpack_from("<I", raw, begin + width * row)
    return int(number)


def _text(name: bytes) -> str:
    """A DEX file's name as a text: what is above U+FFFF is spelled by two surrogates there."""
    units = name.decode("utf-8", "surrogatepass").encode("utf-16", "surrogatepass")
    return units.decode("utf-16", "replace")
