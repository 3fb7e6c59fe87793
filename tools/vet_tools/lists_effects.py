"""The effects behind a method in the tables, as words: `same 0 puts 1>0,2>0 sink network 1,2`."""
from __future__ import annotations

from collections.abc import Callable
from dataclasses import replace

from vet_tools.lists_model import Effects, Result


class EffectFault(Exception):
    """Words that say no effect."""


def number(text: str) -> int:
    """A position. Raises EffectFault."""
    if not text.isdigit():
        raise EffectFault(f"{text or 'nothing'} is no position")
    return int(text)


def numbers(text: str) -> tuple[int, ...]:
    """Positions with commas between them."""
    return tuple(number(part) for part in text.split(","))


def pairs(text: str) -> list[tuple[str, str]]:
    """What stands before and behind each arrow of `1>0,2>0`. Raises EffectFault."""
    found = [tuple(part.partition(">")) for part in text.split(",")]
    if not all(before and arrow and behind for before, arrow, behind in found):
        raise EffectFault(f"{text} is no pair: write 1>0, or 1>0,2>0")
    return [(before, behind) for before, _, behind in found]


def positions(text: str) -> tuple[tuple[int, int], ...]:
    """Pairs of positions. Raises EffectFault."""
    return tuple((number(before), number(behind)) for before, behind in pairs(text))


def result(effects: Effects, kind: Result, **told: object) -> Effects:
    """The effects with this result. Raises EffectFault where there is one already."""
    if effects.result is not Result.BLANK and (kind is not Result.JOINED or effects.positions or not effects.source):
        raise EffectFault("a row has one result")
    return replace(effects, result=kind, **told)


def store(effects: Effects, text: str) -> Effects:
    """The effects, and a store of each pair. Raises EffectFault."""
    return replace(effects, stores=effects.stores + tuple((number(before), name) for before, name in pairs(text)))


def sink(effects: Effects, category: str, text: str) -> Effects:
    """The effects with this sink. Raises EffectFault where there is one already."""
    if effects.sink:
        raise EffectFault("a row has one sink")
    return replace(effects, sink=category, sink_positions=numbers(text))


def source(effects: Effects, category: str) -> Effects:
    """The effects with this source. Raises EffectFault where there is one already, or a result that goes with none."""
    if effects.source or effects.result not in (Result.BLANK, Result.JOINED):
        raise EffectFault("a row has one source, and its result is joined")
    return replace(effects, source=category, result=Result.JOINED)


WORDS: dict[str, tuple[int, Callable[..., Effects]]] = {
    "fresh": (0, lambda e: result(e, Result.JOINED)),
    "handed": (0, lambda e: result(e, Result.HANDED)),
    "same": (1, lambda e, t: result(e, Result.SAME, positions=(number(t),))),
    "taken": (1, lambda e, t: result(e, Result.TAKEN, positions=(number(t),))),
    "joined": (1, lambda e, t: result(e, Result.JOINED, positions=numbers(t))),
    "shared": (1, lambda e, t: result(e, Result.SHARED, shared=t)),
    "puts": (1, lambda e, t: replace(e, puts=e.puts + positions(t))),
    "stores": (1, store),
    "copies": (1, lambda e, t: replace(e, copies=e.copies + positions(t))),
    "source": (1, source),
    "sink": (2, sink),
    "reflective": (0, lambda e: replace(e, reflective=True)),
}


def effects_of(words: list[str]) -> Effects:
    """What the words say together. Raises EffectFault."""
    effects, rest = Effects(), list(words)
    while rest:
        word = rest.pop(0)
        if word not in WORDS:
            raise EffectFault(f"{word} is no effect; the effects are {', '.join(WORDS)}")
        count, does = WORDS[word]
        if len(rest) < count:
            raise EffectFault(f"{word} lacks what belongs behind it")
        effects = does(effects, *rest[:count])
        rest = rest[count:]
    return effects
