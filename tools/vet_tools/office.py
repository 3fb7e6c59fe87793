"""The office file of a desk, as far as a client needs it. It is read and never judged: the desk does that."""

from __future__ import annotations

import tomllib
from dataclasses import dataclass
from datetime import date, timedelta
from pathlib import Path

EPOCH = date(1970, 1, 1)
LAST_DAY = (date.max - EPOCH).days


class OfficeError(Exception):
    """Why an office cannot be used, in one sentence that says what to do."""


@dataclass(frozen=True)
class Party:
    """One who may ask the desk."""

    name: str
    role: str


@dataclass(frozen=True)
class Office:
    """Where the desk listens, for how many days appeals are taken, and who has which token.

    `appeal_days` is None where the office file could not be read.
    """

    folder: Path
    port: int
    appeal_days: int | None
    parties: tuple[Party, ...]
    tokens: tuple[str, ...]

    def party_of(self, token: str) -> Party | None:
        """The party with this token, where the office file names one."""
        for party, known in zip(self.parties, self.tokens):
            if known == token:
                return party
        return None


def _tables(found: object) -> list[dict[str, object]]:
    return [table for table in found if isinstance(table, dict)] if isinstance(found, list) else []


def read_office(folder: Path) -> Office:
    """The office in `folder`. Raises OfficeError where there is none, or where its file is not of its form."""
    file = folder / "office.toml"
    try:
        form = tomllib.loads(file.read_text(encoding="utf-8"))
    except FileNotFoundError:
        raise OfficeError(f"{file} is not there: name the folder of the office, as `vet serve` has it.") from None
    except NotADirectoryError:
        raise OfficeError(f"{folder} is no folder: name the folder of the office, as `vet serve` has it.") from None
    except PermissionError:
        raise OfficeError(f"{file} may not be read by you: run this as the desk's user, or give --port.") from None
    except OSError:
        raise OfficeError(f"{file} could not be read: look to the disk.") from None
    except (UnicodeDecodeError, tomllib.TOMLDecodeError):
        raise OfficeError(f"{file} is no TOML: mend it as `vet serve` asks.") from None
    port, days = form.get("port"), form.get("appeal_days")
    if not isinstance(port, int) or not 1 <= port <= 65535:
        raise OfficeError(f"{file} has no port from 1 to 65535: mend it as `vet serve` asks.")
    parties = _tables(form.get("party"))
    return Office(
        folder,
        port,
        days if isinstance(days, int) and 1 <= days <= 365 else None,
        tuple(Party(str(party.get("name", "")), str(party.get("role", ""))) for party in parties),
        tuple(str(party.get("token", "")) for party in parties),
    )


def day_text(day: int) -> str:
    """The date of a day that is counted from 1 January 1970, as `2026-11-29`; one that no date has, as `day N`."""
    return (EPOCH + timedelta(days=day)).isoformat() if 0 <= day <= LAST_DAY else f"day {day}"
