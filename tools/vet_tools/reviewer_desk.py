"""What stands behind the reviewer's pages: the cases as they are now, and the commands under way."""

from __future__ import annotations

import hashlib
import secrets
import threading
import time
from collections import OrderedDict
from collections.abc import Callable, Iterator
from contextlib import closing, contextmanager
from dataclasses import dataclass, field
from pathlib import Path

from vet_tools.desk_cases import Cases
from vet_tools.desk_client import Desk, Told
from vet_tools.desk_copy import Copied, copy_database, open_copy
from vet_tools.office import Office
from vet_tools.reviewer_apps import AppPages

FORMS_KEPT = 5000
COMMANDS_KEPT = 500
COMMANDS_AT_ONCE = 4
DAY = 86_400


@dataclass
class Command:
    """A command to the desk: what it is, where the reviewer goes when it is done, and what came of it."""

    what: str
    way: str
    began: float = field(default_factory=time.monotonic)
    told: Told | None = None
    ended: threading.Event = field(default_factory=threading.Event)


class Store:
    """A copy of the desk's database in a folder; it is brought up to date where the database changed."""

    def __init__(self, database: Path, folder: Path) -> None:
        self._database, self._folder = database, folder
        self._lock = threading.Lock()
        self._copied: Copied | None = None

    def _refresh(self) -> Copied | None:
        if self._copied is not None and self._copied.is_still(self._database):
            return self._copied
        before, self._copied = self._copied, None
        self._copied = copy_database(self._database, self._folder / "copy", before)
        return self._copied

    @contextmanager
    def cases(self) -> Iterator[Cases | None]:
        """The cases as they are now; None where the desk has no database yet. One caller reads at a time."""
        with self._lock:
            copied = self._refresh()
            if copied is None:
                yield None
                return
            with closing(open_copy(copied)) as connection:
                yield Cases(connection) if Cases.are_in(connection) else None


class Forms:
    """The nonces of the forms that were shown, and the commands that were sent by them: a form sends one at most."""

    def __init__(self) -> None:
        self._lock = threading.Lock()
        self._shown: OrderedDict[str, None] = OrderedDict()
        self._sent: OrderedDict[str, Command] = OrderedDict()

    def nonce(self) -> str:
        """A nonce for a form that is shown now."""
        drawn = secrets.token_urlsafe(16)
        with self._lock:
            self._shown[drawn] = None
            while len(self._shown) > FORMS_KEPT:
                self._shown.popitem(last=False)
        return drawn

    def sent(self, nonce: str) -> Command | None:
        """The command that was sent by the form of this nonce."""
        with self._lock:
            return self._sent.get(nonce)

    @staticmethod
    def seconds(command: Command) -> float:
        """For how long a command is under way."""
        return time.monotonic() - command.began

    def was_shown(self, nonce: str) -> bool:
        """Whether a form of this nonce was shown, and sent nothing yet."""
        with self._lock:
            return nonce in self._shown

    def send(self, nonce: str, command: Command, ask: Callable[[], Told]) -> bool:
        """Sends the command by a thread of its own. The answer is False where too many are under way."""
        with self._lock:
            if nonce not in self._shown:
                return nonce in self._sent
            if sum(not sent.ended.is_set() for sent in self._sent.values()) >= COMMANDS_AT_ONCE:
                return False
            del self._shown[nonce]
            self._sent[nonce] = command
            while len(self._sent) > COMMANDS_KEPT:
                self._sent.popitem(last=False)
        threading.Thread(target=_carry_out, args=(command, ask), daemon=True).start()
        return True


def _carry_out(command: Command, ask: Callable[[], Told]) -> None:
    try:
        command.told = ask()
    except Exception:  # The reviewer is told in any case.
        command.told = Told(False, "The command failed on its way. It may have been carried out: look at the case.")
    finally:
        command.ended.set()


@dataclass(frozen=True)
class Reviewing:
    """One run of the reviewer's desk."""

    office: Office
    desk: Desk
    who: str
    store: Store
    forms: Forms
    apps: AppPages
    secret: str

    @property
    def root(self) -> str:
        """The path that every page begins with."""
        return f"/{self.secret}/"

    @staticmethod
    def today() -> int:
        """The day in UTC, counted as the desk counts."""
        return int(time.time()) // DAY

    def lists(self) -> bytes | None:
        """The lists in the office's folder, where they can be read."""
        try:
            return (self.office.folder / "lists.toml").read_bytes()
        except OSError:
            return None

    def is_of_these_lists(self, edition: bytes) -> bool | None:
        """Whether an edition is that of the lists in the office's folder; None where they cannot be read."""
        lists = self.lists()
        return None if lists is None else hashlib.sha256(lists).digest() == edition
