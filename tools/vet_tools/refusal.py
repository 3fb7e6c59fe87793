"""How a tool of this folder says that it cannot do what it was asked for, and how it names a path."""
from __future__ import annotations

from vet_tools.shown import shown


class Refusal(Exception):
    """What was asked for can't be done; the text is one sentence that says why, or what to do."""


def readable(path: object) -> str:
    """A path that a person gave, as it is but for what is not to be printed on a terminal."""
    return "".join(c if c.isprintable() else shown(c) for c in str(path))
