"""In which order the steps of a way are told: each behind those on which it rests, and else as a run would go.

Where several may come next it is one that enters the same method from the same instruction as the last; else one in
the method in which the last was, by its address; else the earliest of the story whose method has been entered, where a
step says that it is entered at all.
"""
from __future__ import annotations

from dataclasses import dataclass
from heapq import heappop, heappush
from typing import Iterable

from vet_tools.certificate import Context, Node
from vet_tools.story import Story

Activation = tuple[Context, int]


def activation(node: Node) -> Activation:
    """The method and the context of an instruction."""
    return node.context, node.method


@dataclass(frozen=True)
class Turn:
    """A line that is told: its number, where it happens, and the activation that begins with it."""
    number: int
    node: Node
    entered: Node | None = None


class _Ready:
    """The lines that may come next."""

    def __init__(self, turns: Iterable[Turn]) -> None:
        self.turns = {turn.number: turn for turn in turns}
        self.to_come: dict[Activation, int] = {}
        for turn in self.turns.values():
            if turn.entered is not None:
                key = activation(turn.entered)
                self.to_come[key] = self.to_come.get(key, 0) + 1
        self.entered: set[Activation] = set()
        self.by_address: dict[Activation, list[tuple[int, int]]] = {}
        self.by_number: list[int] = []
        self.entering: dict[tuple[Node, Activation], list[int]] = {}
        self.last: tuple[Node, Activation] | None = None
        self.parked: dict[Activation, list[int]] = {}
        self.late: list[int] = []
        self.done: set[int] = set()
        self.now: Activation | None = None

    def add(self, number: int) -> None:
        turn = self.turns[number]
        key = activation(turn.node)
        heappush(self.by_address.setdefault(key, []), (turn.node.pc, number))
        heappush(self.by_number, number)
        if turn.entered is not None:
            heappush(self.entering.setdefault((turn.node, activation(turn.entered)), []), number)

    def waits(self, key: Activation) -> bool:
        """Is an activation entered by a step that is still to come?"""
        return key not in self.entered and self.to_come.get(key, 0) > 0

    def take(self) -> Turn | None:
        """The next one, where there is one."""
        beside = self.entering.get(self.last, []) if self.last else []
        while beside:
            number = heappop(beside)
            if number not in self.done:
                return self._taken(number)
        here = self.by_address.get(self.now, []) if self.now else []
        while here:
            number = heappop(here)[1]
            if number not in self.done:
                return self._taken(number)
        while self.by_number:
            number = heappop(self.by_number)
            key = activation(self.turns[number].node)
            if number in self.done:
                continue
            if self.waits(key):
                self.parked.setdefault(key, []).append(number)
                heappush(self.late, number)
                continue
            return self._taken(number)
        while self.late:
            number = heappop(self.late)
            if number not in self.done:
                return self._taken(number)
        return None

    def _taken(self, number: int) -> Turn:
        turn = self.turns[number]
        self.done.add(number)
        self.now = activation(turn.node if turn.entered is None else turn.entered)
        self.last = None if turn.entered is None else (turn.node, self.now)
        if turn.entered is not None:
            self.entered.add(self.now)
            for parked in self.parked.pop(self.now, []):
                heappush(self.by_number, parked)
        return turn


def ordered(story: Story, turns: Iterable[Turn], behind: Iterable[tuple[int, int]] = ()) -> list[int]:
    """The numbers of the lines that are told, in the order in which they are; of each pair the second rests on the
    first besides, which stands before it in the story."""
    ready = _Ready(turns)
    followers: list[list[int]] = [[] for _ in range(len(story.lines) + 1)]
    wanting = [0] * (len(story.lines) + 1)
    for number, line in enumerate(story.lines, 1):
        for premise in set(line.premises):
            followers[premise].append(number)
            wanting[number] += 1
    for first, later in behind:
        followers[first].append(later)
        wanting[later] += 1
    found: list[int] = []
    free = [number for number in range(1, len(wanting)) if not wanting[number]]
    while True:
        while free:
            number = free.pop()
            if number in ready.turns and number not in ready.done:
                ready.add(number)
                continue
            for one in followers[number]:
                wanting[one] -= 1
                if not wanting[one]:
                    free.append(one)
        turn = ready.take()
        if turn is None:
            return found
        found.append(turn.number)
        free.append(turn.number)
