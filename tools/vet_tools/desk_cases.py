"""The cases of a desk, read from a copy of its database. Names and texts are bytes, as the desk has them."""

from __future__ import annotations

import hashlib
import sqlite3
from collections.abc import Iterator
from dataclasses import dataclass
from enum import Enum

VERSION = 2


class CasesError(Exception):
    """Why the cases cannot be read, in one sentence that says what to do."""


class State(Enum):
    """How far a case is."""

    QUEUED = "queued"
    DECIDED = "decided"
    APPEALED = "appealed"
    RULED = "ruled"


@dataclass(frozen=True)
class Appeal:
    """An appeal against a decision."""

    day: int
    text: bytes


@dataclass(frozen=True)
class Ruling:
    """A ruling on an appeal: its word is `uphold` or `overturn`."""

    reviewer: bytes
    day: int
    word: bytes


@dataclass(frozen=True)
class Entry:
    """One decision on a case, with the appeal against it and the ruling on that."""

    outcome: bytes
    report: bytes
    edition: bytes
    reviewer: bytes
    day: int
    appeal: Appeal | None
    ruling: Ruling | None


@dataclass(frozen=True)
class Line:
    """A case in a list. Outcome, reviewer, day and appeal are those of the last entry."""

    number: int
    developer: bytes
    reference: bytes
    state: State
    outcome: bytes | None = None
    reviewer: bytes | None = None
    day: int | None = None
    appealed: int | None = None


@dataclass(frozen=True)
class DexFile:
    """A DEX file of a case: its length and its SHA-256."""

    size: int
    digest: str


@dataclass(frozen=True)
class Case:
    """A case with the forms of its app and its entries, oldest first."""

    number: int
    developer: bytes
    reference: bytes
    state: State
    manifest: bytes
    layouts: bytes
    declaration: bytes
    dex: tuple[DexFile, ...]
    entries: tuple[Entry, ...]

    @property
    def seen(self) -> str:
        """What tells one state of the case from a later one."""
        return f"{len(self.entries)}.{self.state.value}"


# How far each case is, by its last entry. An earlier desk kept a table of this name, which this stands before.
STATES = """
CREATE TEMP VIEW IF NOT EXISTS states AS
SELECT cases.number, cases.party, cases.reference,
    CASE WHEN entries.number IS NULL THEN 'queued' WHEN entry_appeals.number IS NULL THEN 'decided'
        WHEN entry_rulings.number IS NULL THEN 'appealed' ELSE 'ruled' END AS state
FROM cases
LEFT JOIN entries ON entries.number = cases.number
    AND entries.place = (SELECT max(place) FROM entries WHERE entries.number = cases.number)
LEFT JOIN entry_appeals ON entry_appeals.number = entries.number AND entry_appeals.place = entries.place
LEFT JOIN entry_rulings ON entry_rulings.number = entries.number AND entry_rulings.place = entries.place
"""
_LINES = """
SELECT states.number, states.party, states.reference, states.state,
    entries.outcome, entries.reviewer, entries.day, entry_appeals.day
FROM states
LEFT JOIN entries ON entries.number = states.number
    AND entries.place = (SELECT max(place) FROM entries WHERE entries.number = states.number)
LEFT JOIN entry_appeals ON entry_appeals.number = entries.number AND entry_appeals.place = entries.place
"""
_ENTRIES = """
SELECT entries.outcome, entries.report, entries.lists, entries.reviewer, entries.day, entry_appeals.day,
    entry_appeals.body, entry_rulings.reviewer, entry_rulings.day, entry_rulings.word
FROM entries
LEFT JOIN entry_appeals ON entry_appeals.number = entries.number AND entry_appeals.place = entries.place
LEFT JOIN entry_rulings ON entry_rulings.number = entries.number AND entry_rulings.place = entries.place
WHERE entries.number = ? ORDER BY entries.place
"""


def _state(word: bytes) -> State:
    try:
        return State(word.decode("ascii"))
    except ValueError:
        raise CasesError("The database has a state that the desk does not write: look to the disk.") from None


def _line(row: tuple[object, ...]) -> Line:
    number, developer, reference, state, *rest = row
    return Line(number, developer, reference, _state(state), *rest)


def _like(words: str) -> bytes:
    text = words.replace("\\", "\\\\").replace("%", "\\%").replace("_", "\\_")
    return b"%" + text.encode("utf-8", "surrogateescape") + b"%"


class Cases:
    """The cases in a copy of the database. Raises CasesError where it is not one of the desk's."""

    def __init__(self, connection: sqlite3.Connection) -> None:
        self._connection = connection
        try:
            rows = list(self._ask("SELECT number FROM version"))
        except CasesError:
            raise CasesError("desk.sqlite has no tables of a desk: let the desk take a request once.") from None
        if rows != [(VERSION,)]:
            raise CasesError("desk.sqlite is of another version: let this version's desk take a request once.")
        list(self._ask(STATES))

    @staticmethod
    def are_in(connection: sqlite3.Connection) -> bool:
        """Whether there are tables at all: a desk makes them at its first request."""
        try:
            return connection.execute("SELECT count(*) FROM sqlite_schema").fetchone() != (0,)
        except sqlite3.Error:
            raise CasesError("desk.sqlite is no database of a desk: try again, or look to the disk.") from None

    def _ask(self, query: str, values: tuple[object, ...] = ()) -> Iterator[tuple[object, ...]]:
        try:
            yield from self._connection.execute(query, values)
        except sqlite3.Error:
            raise CasesError("The copy of desk.sqlite could not be read: try again, or look to the disk.") from None

    def count(self, state: State) -> int:
        """How many cases are in this state."""
        return int(next(self._ask("SELECT count(*) FROM states WHERE state = ?", (state.value,)))[0])

    def queue(self, most: int) -> list[Line]:
        """The cases without a decision, the next one first."""
        query = f"{_LINES} WHERE states.state = 'queued' ORDER BY states.number LIMIT ?"
        return [_line(row) for row in self._ask(query, (most,))]

    def appeals(self, most: int) -> list[Line]:
        """The cases with an open appeal, the oldest first."""
        query = f"{_LINES} WHERE states.state = 'appealed' ORDER BY entry_appeals.day, states.number LIMIT ?"
        return [_line(row) for row in self._ask(query, (most,))]

    def decided(self, words: str, most: int, skip: int) -> list[Line]:
        """The cases with a decision, the latest first, whose developer or reference has these words in it."""
        query = (
            f"{_LINES} WHERE states.state <> 'queued' AND (CAST(states.party AS TEXT) LIKE CAST(?1 AS TEXT) ESCAPE '\\'"
            " OR states.reference LIKE CAST(?1 AS TEXT) ESCAPE '\\') ORDER BY entries.day DESC, states.number DESC"
            " LIMIT ?2 OFFSET ?3"
        )
        return [_line(row) for row in self._ask(query, (_like(words), most, skip))]

    def number_of(self, developer: str, reference: str) -> int | None:
        """The number of the case of these names, where there is one."""
        query = "SELECT number FROM states WHERE party = ? AND reference = ?"
        for (number,) in self._ask(query, (developer, reference)):
            return number
        return None

    def case(self, number: int) -> Case | None:
        """The case of this number, where there is one."""
        if number >= 1 << 63:
            return None
        query = (
            "SELECT states.party, states.reference, states.state, manifest, layouts, declaration"
            " FROM states JOIN cases ON cases.number = states.number WHERE states.number = ?"
        )
        for developer, reference, state, *forms in self._ask(query, (number,)):
            dex, entries = tuple(self._dex(number)), tuple(self._entries(number))
            return Case(number, developer, reference, _state(state), *forms, dex, entries)
        return None

    def _dex(self, number: int) -> Iterator[DexFile]:
        for (data,) in self._ask("SELECT bytes FROM dex WHERE number = ? ORDER BY place", (number,)):
            yield DexFile(len(data), hashlib.sha256(data).hexdigest())

    def files(self, number: int) -> Iterator[bytes]:
        """The DEX files of a case, in their order."""
        for (data,) in self._ask("SELECT bytes FROM dex WHERE number = ? ORDER BY place", (number,)):
            yield data

    def _entries(self, number: int) -> Iterator[Entry]:
        for outcome, report, lists, reviewer, day, appealed, text, ruler, ruled, word in self._ask(_ENTRIES, (number,)):
            appeal = None if appealed is None else Appeal(appealed, text)
            ruling = None if ruled is None else Ruling(ruler, ruled, word)
            yield Entry(outcome, report, lists, reviewer, day, appeal, ruling)
