"""A certificate of either set of rules: the table of what follows in an app, as `vet certify` writes it
(`docs/FORMATS.md`).

The rows are read strictly; bytes that are no certificate are a `CertificateFault` with the words of the program. That
a table is closed is not looked at here: `vet recheck DIR CERT` does that.
"""
from __future__ import annotations

import struct
from dataclasses import dataclass
from enum import IntEnum
from pathlib import Path
from typing import Iterator

from vet_tools.progress import tell
from vet_tools.shown import in_quotes

FIRST, SECOND, OLD_MAGIC = b"VETCERT2", b"VETCELL1", b"VETCERT1"
LONGEST = 536_870_912


class CertificateFault(Exception):
    """The bytes are no certificate: `reason` in the words of `docs/FORMATS.md`, such as `cut at 44`."""

    def __init__(self, reason: str) -> None:
        super().__init__(reason)
        self.reason = reason


class NoCertificate(Exception):
    """The file could not be read, so that nothing is said of a certificate; the text is one sentence."""


class Kind(IntEnum):
    """The kinds of rows."""
    REACHED = 1
    POINTS = 2
    TAINT = 3
    CELL = 4
    BACK = 5
    STATIC_POINTS = 6
    STATIC_TAINT = 7
    CALLS = 8
    CALLED_BY = 9
    EFFECT = 10
    METHOD_EFFECT = 11
    EXIT_POINTS = 12
    EXIT_TAINT = 13
    LIVE = 14
    COMP_TAINT = 15
    HANDED = 16
    HANDED_TAINT = 17
    ARRIVE = 18
    UNKNOWN = 19
    USES = 20
    LABEL = 21
    STATIC_LABEL = 22
    CELL_LABEL = 23
    HOLDS = 24
    EXIT_LABEL = 25


class ContextKind(IntEnum):
    """Why a method runs."""
    EVENT = 0
    CALLBACK = 1
    CLICK = 2
    HANDED = 3
    INITIALISER = 4
    CALL = 5
    TWO_CALLS = 6


Context = tuple[int, ...]


@dataclass(frozen=True)
class Node:
    """An instruction of a method in a context: the context's kind and numbers, the method's number, the address."""
    context: Context
    method: int
    pc: int


# The fields of each kind: n node, a activation, s site, p path, 4 number, 1 byte, h how (0, 1), c cause (1 to 3),
# u use (0, 1).
_FIELDS = {1: "n", 2: "n4s", 3: "n4p1", 4: "s4s", 5: "s4s", 6: "4s", 7: "4p1", 8: "na", 9: "an", 10: "nsp1",
           11: "asp1", 12: "ahs", 13: "ahp1", 14: "41", 15: "41p1", 16: "s", 17: "sp1", 18: "11n", 19: "nc", 20: "nu4",
           21: "n41", 22: "41", 23: "s41", 24: "s1", 25: "ah1"}
# The kinds of rows and of sites by the first eight bytes: the first set of rules says labels along paths, the second of
# values. In a story, which has rows of one of the two, any is taken.
_KINDS = {FIRST: range(1, 21), SECOND: [kind for kind, fields in _FIELDS.items() if "p" not in fields],
          b"": list(_FIELDS)}
_SITES = {FIRST: 4, SECOND: 5, b"": 5}
_NUMBERS = {count: struct.Struct(f"<{count}I") for count in range(1, 8)}
_LIMITS = {"h": (0, 1), "c": (1, 3), "u": (0, 1)}

Flat = tuple[int, ...]


class _Bad(Exception):
    """A byte that no row has there."""


class _Reader:
    """Reads one row's fields as numbers, in the order in which rows are compared."""

    def __init__(self, data: bytes, magic: bytes) -> None:
        self.data = data
        self.at = 0
        self.kinds = frozenset(_KINDS[magic])
        self.sites = _SITES[magic]

    def row(self) -> Flat:
        """One row: its kind and its fields. Raises `_Bad`, and `IndexError` or `struct.error` where it is cut."""
        found = [self.byte()]
        if found[0] not in self.kinds:
            raise _Bad
        for sign in _FIELDS[found[0]]:
            if sign == "n":
                self.context(found, 2)
            elif sign == "a":
                self.context(found, 1)
            elif sign == "s":
                self.site(found)
            elif sign == "p":
                self.path(found)
            elif sign == "4":
                self.numbers(found, 1)
            else:
                found.append(self.byte())
                low, high = _LIMITS.get(sign, (0, 255))
                if not low <= found[-1] <= high:
                    raise _Bad
        return tuple(found)

    def byte(self) -> int:
        value = self.data[self.at]
        self.at += 1
        return value

    def numbers(self, found: list[int], count: int) -> None:
        found.extend(_NUMBERS[count].unpack_from(self.data, self.at))
        self.at += 4 * count

    def context(self, found: list[int], more: int) -> None:
        """A context and `more` numbers behind it: the method, and the address."""
        kind = self.byte()
        if kind > 6:
            raise _Bad
        found.append(kind)
        # Of the kinds 3 and 4 the second number is 0, byte for byte.
        if kind in (3, 4) and any(self.data[self.at + 4:self.at + 8]):
            raise _Bad
        self.numbers(found, (4 if kind == 6 else 2) + more)

    def site(self, found: list[int]) -> None:
        kind = self.byte()
        if kind >= self.sites:
            raise _Bad
        found.append(kind)
        if kind == SiteKind.NODE:
            self.context(found, 2)
        elif kind == SiteKind.PARAMETER:
            self.context(found, 1)
        else:
            self.numbers(found, 2 if kind == SiteKind.MADE else 1)

    def path(self, found: list[int]) -> None:
        first = self.byte()
        if first & 127 > 5:
            raise _Bad
        found.append(first)
        if first & 127:
            self.numbers(found, first & 127)


class Certificate:
    """The bytes of a certificate, with its digest and the number of its rows."""

    def __init__(self, data: bytes) -> None:
        """Raises `CertificateFault` where the head is none."""
        if len(data) < 8 or data[:8] not in (FIRST, SECOND, OLD_MAGIC):
            raise CertificateFault("magic")
        if data[:8] == OLD_MAGIC:
            raise CertificateFault("version 1")
        if len(data) < 40:
            raise CertificateFault("cut at 8")
        if len(data) < 44:
            raise CertificateFault("cut at 40")
        self.data = data
        self.magic = data[:8]
        self.digest = data[8:40]
        self.count = int.from_bytes(data[40:44], "little")

    @staticmethod
    def read(path: str) -> Certificate:
        """A certificate from a file. Raises `CertificateFault`, and `NoCertificate` where the file can't be read."""
        file = Path(path)
        try:
            if file.stat().st_size > LONGEST:
                raise CertificateFault(f"longer than {LONGEST}")
            return Certificate(file.read_bytes())
        except OSError as fault:
            raise NoCertificate(f"The certificate {in_quotes(path)} could not be read ({fault.strerror}); "
                                "./vet certify makes one.") from None

    def rows(self) -> Iterator[Flat]:
        """All rows in their order, each as its kind and the numbers of its fields. Raises `CertificateFault`."""
        reader = _Reader(self.data, self.magic)
        reader.at = 44
        last: Flat = ()
        for number in range(self.count):
            begin = reader.at
            try:
                row = reader.row()
            except _Bad:
                raise CertificateFault(f"bad at {begin}") from None
            except (IndexError, struct.error):
                raise CertificateFault(f"cut at {begin}") from None
            if row <= last:
                raise CertificateFault(f"order at {begin}")
            last = row
            if number % 50_000 == 49_999:
                tell(f"reading the certificate: {number + 1} of {self.count} rows")
            yield row
        tell("")
        if reader.at != len(self.data):
            raise CertificateFault(f"rest at {reader.at}")


def row_of(data: bytes) -> Flat:
    """The one row of either set that these bytes are, as its kind and the numbers of its fields. Raises
    `CertificateFault`."""
    reader = _Reader(data, b"")
    try:
        row = reader.row()
    except _Bad:
        raise CertificateFault("bad at 0") from None
    except (IndexError, struct.error):
        raise CertificateFault("cut at 0") from None
    if reader.at != len(data):
        raise CertificateFault(f"rest at {reader.at}")
    return row


def node_of(fields: Flat) -> tuple[Node, Flat]:
    """The node with which these fields begin, and the fields behind it."""
    end = 5 if fields[0] == ContextKind.TWO_CALLS else 3
    return Node(fields[:end], fields[end], fields[end + 1]), fields[end + 2:]


def activation_of(fields: Flat) -> tuple[Node, Flat]:
    """The activation with which these fields begin, as the node with which it does, and the fields behind it."""
    end = 5 if fields[0] == ContextKind.TWO_CALLS else 3
    return Node(fields[:end], fields[end], 0), fields[end + 1:]


class SiteKind(IntEnum):
    """Where an object was made."""
    NODE = 0
    PARAMETER = 1
    COMPONENT = 2
    SHARED = 3
    MADE = 4


def site_of(fields: Flat) -> tuple[Flat, Flat]:
    """The site with which these fields begin, as its kind and numbers, and the fields behind it."""
    if fields[0] > SiteKind.PARAMETER:
        end = 3 if fields[0] == SiteKind.MADE else 2
        return fields[:end], fields[end:]
    context = 5 if fields[1] == ContextKind.TWO_CALLS else 3
    end = 1 + context + (2 if fields[0] == SiteKind.NODE else 1)
    return fields[:end], fields[end:]
