"""The table of resources of an APK (`resources.arsc`), as far as names of classes and methods may come from it.

It is read by androguard. That goes through entries as if each began where the one before ends, so each is read once
more here where the table says that it lies; a table in a form that androguard does not know is refused.
"""
from __future__ import annotations

from collections import defaultdict
from typing import Iterator

from androguard.core.bytecodes import axml

from vet_tools.binary_xml import Value, pool_text
from vet_tools.refusal import Refusal

REFERENCES = (axml.TYPE_REFERENCE, axml.TYPE_DYNAMIC_REFERENCE)
THEME_REFERENCES = (axml.TYPE_ATTRIBUTE, axml.TYPE_DYNAMIC_ATTRIBUTE)
# The flag of an entry in the newer form that androguard does not know, and that of a list of entries with gaps.
COMPACT = 0x8
SPARSE = 0x1


class ResourceTable:
    """Values of resources by their number, and values of styles by the attribute that they are for."""

    def __init__(self, raw: bytes | None) -> None:
        self.simple: dict[int, list[Value]] = defaultdict(list)
        self.styled: dict[int, list[Value]] = defaultdict(list)
        self.files: dict[str, set[str]] = defaultdict(set)
        if raw is None:
            return
        try:
            self._take(axml.ARSCParser(raw))
        except Refusal:
            raise
        except Exception as error:  # androguard raises whatever a damaged file makes it stumble over
            raise Refusal(f"resources.arsc can't be read: it is damaged, or of a form that androguard does not know "
                          f"({type(error).__name__})") from None

    def texts(self, value: Value, what: str) -> set[str]:
        """The texts that a value may mean: itself, or all that its reference has; `what` names it in a `Refusal`."""
        found: set[str] = set()
        waiting, seen = [value], set()
        while waiting:
            one = waiting.pop()
            if one in seen:
                continue
            seen.add(one)
            if one.kind == axml.TYPE_STRING:
                found.add(one.text)
            elif one.kind == axml.TYPE_NULL or (one.kind in REFERENCES and one.data == 0):
                continue
            elif one.kind in REFERENCES + THEME_REFERENCES:
                table = self.simple if one.kind in REFERENCES else self.styled
                if one.data not in table:
                    raise Refusal(f"{what} refers to the resource 0x{one.data:08x}, which the APK does not have")
                waiting.extend(table[one.data])
            else:
                raise Refusal(f"{what} is a number and no text")
        return found

    def all_texts(self) -> Iterator[str]:
        """Each text of a resource or of a style."""
        for values in (*self.simple.values(), *self.styled.values()):
            yield from (it.text for it in values if it.kind == axml.TYPE_STRING)

    def _take(self, parser: axml.ARSCParser) -> None:
        """Takes what the parser read: for each package its names, then chunks, each with the places of its entries."""
        for parts in parser.packages.values():
            for part in parts:
                if isinstance(part, axml.ARSCHeader):
                    header = part
                elif isinstance(part, axml.ARSCResType):
                    kind = part
                elif isinstance(part, list):
                    for offset, number in _places(part, kind.flags):
                        parser.buff.set_idx(header.start + kind.entriesStart + offset)
                        self._entry(axml.ARSCResTableEntry(parser.buff, number, kind.parent), header, kind)

    def _entry(self, entry: axml.ARSCResTableEntry, header: axml.ARSCHeader, kind: axml.ARSCResType) -> None:
        if entry.flags & COMPACT or not header.start <= entry.start < header.end:
            raise Refusal("resources.arsc has a form that can't be read here (compact entries)")
        if entry.is_complex():
            for attribute, item in entry.item.items:
                self.styled[attribute].append(_value(item))
            return
        value = _value(entry.key)
        self.simple[entry.mResId].append(value)
        if value.kind == axml.TYPE_STRING:
            self.files[value.text].add(str(kind.get_type()))


def _places(entries: list[tuple[int, int]], flags: int) -> list[tuple[int, int]]:
    """Where entries lie and which resources they are, from what stands in the list of entries and its place there."""
    if flags & ~SPARSE:
        raise Refusal("resources.arsc has a form that can't be read here (short offsets)")
    if not flags:
        return [it for it in entries if it[0] != -1]
    return [((told >> 16 & 0xFFFF) * 4, number & ~0xFFFF | told & 0xFFFF) for told, number in entries]


def _value(item: axml.ARSCResStringPoolRef) -> Value:
    text = pool_text(item.parent.stringpool_main, item.data) if item.data_type == axml.TYPE_STRING else ""
    return Value(item.data_type, item.data, text)
