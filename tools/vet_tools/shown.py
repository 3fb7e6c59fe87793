"""Texts of a stranger as they can be shown: in a page, on a terminal, and as a report prints names."""

from __future__ import annotations

import html
import unicodedata
from typing import Iterable

# Control and format characters (among them those that turn the direction of writing), what has no meaning agreed on,
# and what breaks lines unseen.
_HIDDEN = {"Cc", "Cf", "Cs", "Co", "Cn", "Zl", "Zp"}


def _one(character: str, keep: str) -> str:
    if character in keep or unicodedata.category(character) not in _HIDDEN:
        return character
    number = ord(character)
    if 0xDC80 <= number <= 0xDCFF:
        return f"\\x{number - 0xDC00:02x}"
    return f"\\x{number:02x}" if number < 0x100 else f"\\u{{{number:x}}}"


def visible(data: bytes | str, keep: str = "") -> str:
    """The text with every byte and character that cannot be seen written out, as `\\x1b`; those of `keep` stand."""
    text = data.decode("utf-8", "surrogateescape") if isinstance(data, bytes) else data
    return "".join(_one(character, keep) for character in text)


def escaped(data: bytes | str, keep: str = "") -> str:
    """The same as text of an HTML page, also within quotes."""
    return html.escape(visible(data, keep), quote=True)


def prose(data: bytes) -> str:
    """A text of several lines as text of an HTML page: tabs and ends of lines stand."""
    return escaped(data.replace(b"\r\n", b"\n"), keep="\n\t")


def printed(name: bytes, also: str = "") -> str:
    """A name as `vet` prints it: visible ASCII but the backslash (and `also`) stays, each other byte is `\\xNN`."""
    return "".join(chr(b) if 33 <= b <= 126 and b != 92 or chr(b) in also else f"\\x{b:02x}" for b in name)


def shown(text: str) -> str:
    """A text of an app as `vet` prints a name."""
    return printed(text.encode("utf-8", "surrogatepass"))


def in_quotes(line: str) -> str:
    """A line of unknown origin, short and in visible ASCII, for a sentence about it."""
    text = printed(line.encode("utf-8", "surrogateescape"), " ")
    return f"'{text}'" if len(text) <= 80 else f"'{text[:80]}..'"


def as_text(lines: Iterable[str]) -> str:
    """Lines as one text that ends with a line feed, without empty lines at the end."""
    return "\n".join(lines).rstrip("\n") + "\n"


def counted(number: int, one: str, many: str = "") -> str:
    """A number with its noun: `1 case`, `1,200 cases`."""
    return f"{number:,} {one if number == 1 else many or one + 's'}"


def size(number: int) -> str:
    """A number of bytes as a person reads it."""
    if number < 1000:
        return counted(number, "byte")
    return f"{number / 1e3:,.1f} kB" if number < 1_000_000 else f"{number / 1e6:,.1f} MB"
