"""The text of the forms `manifest.toml` and `layouts.toml`, within the limits that `docs/FORMATS.md` gives them."""
from __future__ import annotations

import json

from vet_tools.refusal import Refusal
from vet_tools.shown import shown

MOST = 4096
LONGEST = 255
LONGEST_FILE = 16_777_216


def quoted(text: str) -> str:
    """The text as a TOML basic string; a JSON string is one, but for the delete character."""
    return json.dumps(text, ensure_ascii=False).replace("\x7f", "\\u007f")


def checked_text(text: str, what: str) -> str:
    """The text, where it has the 1 to 255 bytes that a form's text has; else a `Refusal`."""
    try:
        length = len(text.encode())
    except UnicodeEncodeError:
        raise Refusal(f"{what} {shown(text)} is no text in UTF-8") from None
    if not 1 <= length <= LONGEST:
        raise Refusal(f"{what} {shown(text[:60])} has {length} bytes, and a form's text has 1 to {LONGEST}")
    return text


def checked_count(count: int, what: str) -> None:
    """Refuses more of one kind than the 4,096 that the forms take."""
    if count > MOST:
        raise Refusal(f"there are {count} {what}, and the form takes at most {MOST}")


def text_list(key: str, texts: list[str]) -> str:
    """A key whose value is a list of texts, in one line where there is at most one, else one a line."""
    if len(texts) <= 1:
        return f"{key} = [{''.join(map(quoted, texts))}]\n"
    return f"{key} = [\n" + "".join(f"    {quoted(it)},\n" for it in texts) + "]\n"


def table(header: str, lines: list[tuple[str, str]]) -> str:
    """A table of an array, each key with its text."""
    return f"\n[[{header}]]\n" + "".join(f"{key} = {quoted(text)}\n" for key, text in lines)


def checked_form(name: str, text: str) -> bytes:
    """The bytes of a form, where they are not more than the program reads."""
    raw = text.encode()
    if len(raw) > LONGEST_FILE:
        raise Refusal(f"{name} would have {len(raw)} bytes, and the program reads at most {LONGEST_FILE}")
    return raw
