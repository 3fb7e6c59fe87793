"""Compiled XML of an APK as a tree of elements, over androguard's parser.

A device finds the platform's attributes by the number that the file's resource map gives for their name, and others by
their name, so an attribute has both here. That parser and device see the same elements is tested: each event has to end
where the chunk of that kind ends. What cannot be read so is a `Refusal`.
"""
from __future__ import annotations

import struct
from dataclasses import dataclass, field
from typing import Iterator

from androguard.core.bytecodes import axml

from vet_tools.refusal import Refusal
from vet_tools.shown import shown

EVENTS = {
    axml.RES_XML_START_ELEMENT_TYPE: axml.START_TAG,
    axml.RES_XML_END_ELEMENT_TYPE: axml.END_TAG,
    axml.RES_XML_CDATA_TYPE: axml.TEXT,
}
NONE = 0xFFFFFFFF
# Start and length of the attributes, as every compiler writes them and the parser takes for granted.
USUAL_LAYOUT = struct.pack("<HH", 20, 20)


@dataclass(frozen=True)
class Value:
    """A typed value: `kind` and `data` are those of a `Res_value`, `text` is what stands there where it is a text."""
    kind: int
    data: int
    text: str = ""


@dataclass(frozen=True)
class Attribute:
    """An attribute; `resource` is the number of the platform's or the app's attribute, where it has one."""
    name: str
    resource: int | None
    value: Value
    namespace: str = ""


@dataclass
class Element:
    """An element with its attributes, the elements in it and the texts in it."""
    tag: str
    attributes: list[Attribute]
    children: list[Element] = field(default_factory=list)
    texts: list[str] = field(default_factory=list)

    def all(self) -> Iterator[Element]:
        """This element and all below it, in the order of the file."""
        waiting = [self]
        while waiting:
            one = waiting.pop()
            yield one
            waiting.extend(reversed(one.children))

    def platform(self, number: int) -> list[Value]:
        """The values of the platform's attribute of this number."""
        return [it.value for it in self.attributes if it.resource == number]

    def plain(self, name: str) -> list[Value]:
        """The values of the attribute of this name that is in no namespace."""
        return [it.value for it in self.attributes if it.name == name and not it.namespace]


def looks_compiled(head: bytes, size: int) -> bool:
    """Whether bytes that begin so may be compiled XML to a device, which doesn't look at the first two of them."""
    if len(head) < 8:
        return False
    header, whole = struct.unpack_from("<HI", head, 2)
    return header == 8 and 8 <= whole <= size


def read(raw: bytes, where: str) -> Element:
    """The root element of compiled XML; `where` names the file in a `Refusal`."""
    try:
        root = _tree(raw)
    except Refusal as reason:
        raise Refusal(f"{shown(where)} can't be read as compiled XML: {reason}") from None
    except Exception as error:  # androguard raises whatever a damaged file makes it stumble over
        raise Refusal(f"{shown(where)} can't be read as compiled XML: it is damaged ({type(error).__name__})") from None
    return root


def _chunks(raw: bytes) -> list[tuple[int, int]]:
    """Kind and end of each chunk that lies in the whole one, as a device goes from one to the next."""
    whole = struct.unpack_from("<I", raw, 4)[0]
    found, at = [], 8
    while at < whole:
        kind, header, size = struct.unpack_from("<HHI", raw, at)
        if header < 8 or size < header or at + size > whole:
            raise Refusal("a part of it does not end within it")
        at += size
        found.append((kind, at))
    return found


def _expected(raw: bytes) -> list[tuple[int, int]]:
    """The events that the parser has to tell, each with its end; names stand before the first element, and once."""
    chunks = _chunks(raw)
    kinds = [kind for kind, _ in chunks]
    first = next((i for i, kind in enumerate(kinds) if kind in EVENTS), len(kinds))
    for kind in (axml.RES_STRING_POOL_TYPE, axml.RES_XML_RESOURCE_MAP_TYPE):
        if kinds.count(kind) > 1 or kind in kinds[first:]:
            raise Refusal("its tables of names stand twice or out of place")
    return [(EVENTS[kind], end) for kind, end in chunks if kind in EVENTS]


def _tree(raw: bytes) -> Element:
    if not looks_compiled(raw[:8], len(raw)):
        raise Refusal("it does not begin as such a file")
    expected = _expected(raw)
    parser = axml.AXMLParser(raw)
    top = Element("", [])
    stack = [top]
    for event, end in expected:
        if next(parser) != event or parser.buff.get_idx() != end or not parser.is_valid():
            raise Refusal("a part of it has another length than its content")
        if event == axml.START_TAG:
            element = Element(_text(parser, parser.m_name), _attributes(parser, raw, end))
            stack[-1].children.append(element)
            stack.append(element)
        elif event == axml.END_TAG:
            if len(stack) < 2 or stack.pop().tag != _text(parser, parser.m_name):
                raise Refusal("its elements do not end in their order")
        else:
            stack[-1].texts.append(_text(parser, parser.m_name))
    if len(stack) != 1 or len(top.children) != 1:
        raise Refusal("it has not one root element")
    return top.children[0]


def _attributes(parser: axml.AXMLParser, raw: bytes, end: int) -> list[Attribute]:
    """The attributes of the element whose begin the parser stands at, which ends at `end`."""
    count = parser.getAttributeCount()
    start = end - 20 * count - 12
    if start < 0 or raw[start:start + 4] != USUAL_LAYOUT:
        raise Refusal("an element's attributes do not lie as compilers lay them")
    found = []
    for i in range(count):
        namespace, name, told, kind, data = parser.m_attributes[i * 5:i * 5 + 5]
        number = parser.m_resourceIDs[name] if name < len(parser.m_resourceIDs) else 0
        text = ""
        if kind == axml.TYPE_STRING:
            text = _text(parser, data)
            if told != NONE and _text(parser, told) != text:
                raise Refusal(f"an attribute has two texts, {shown(text)} and another one")
        found.append(Attribute(_text(parser, name), number or None, Value(kind, data, text), _text(parser, namespace)))
    return found


def _text(parser: axml.AXMLParser, index: int) -> str:
    return pool_text(parser.sb, index)


def pool_text(pool: axml.StringBlock, index: int) -> str:
    """The text of this number; one whose bytes are no text, or end elsewhere than they say, has U+FFFD in it."""
    if index >= len(pool):
        return ""
    text = pool.getString(index)
    units, _ = pool._decode_length(pool.m_stringOffsets[index], 1 if pool.m_isUTF8 else 2)
    return text if len(text.encode("utf-16-le", "surrogatepass")) == 2 * units else "\ufffd" + text
