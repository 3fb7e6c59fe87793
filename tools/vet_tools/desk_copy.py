"""A copy of a desk's database, taken while the desk runs.

The desk holds SQLite's locks on `desk.sqlite` for itself, and answers `store failed` where another program has opened
it as a database. So the database is never opened where it lies: its file and the log beside it (`desk.sqlite-wal`) are
read as plain files, which takes no lock, and SQLite opens the copy, read only.

The pair is one state of the database where neither the file changed nor the log was begun anew while it was copied. The
log only grows otherwise, and SQLite passes over what a copy has of a transaction that was not finished.
"""

from __future__ import annotations

import errno
import os
import sqlite3
import time
from dataclasses import dataclass
from pathlib import Path

from vet_tools.progress import Progress

LOG_HEADER = 32
# A file's time moves in steps of some milliseconds; a change within the last one would not show in it.
SETTLED = 0.05
TRIES = 40
BLOCK = 1 << 20


class CopyError(Exception):
    """Why there is no copy, in one sentence that says what to do."""


@dataclass(frozen=True)
class Mark:
    """What tells two states of a file apart: the file, its length and the time of its last change."""

    device: int
    inode: int
    size: int
    changed: int


def mark_of(file: Path) -> Mark | None:
    """The mark of a file, or None where it is not there."""
    try:
        found = file.stat()
    except FileNotFoundError:
        return None
    return Mark(found.st_dev, found.st_ino, found.st_size, found.st_mtime_ns)


def log_of(source: Path) -> Path:
    """The log beside a database."""
    return source.with_name(source.name + "-wal")


def _header(log: Path) -> bytes:
    try:
        with log.open("rb") as file:
            return file.read(LOG_HEADER)
    except FileNotFoundError:
        return b""


def _is_settled(mark: Mark) -> bool:
    return abs(time.time_ns() - mark.changed) > SETTLED * 1e9


def _opened(file: Path, flags: int) -> int:
    """A descriptor of a file; one that is made is for this user alone."""
    return os.open(file, flags | os.O_CLOEXEC, 0o600)


def _copy(source: Path, target: Path) -> None:
    """Makes the target what the source is. What is the same in an earlier copy there is not written again."""
    progress, at, whole = Progress("vet"), 0, source.stat().st_size
    with (open(_opened(source, os.O_RDONLY), "rb", 0) as read,
          open(_opened(target, os.O_RDWR | os.O_CREAT), "r+b", 0) as write):
        while block := os.pread(read.fileno(), BLOCK, at):
            if os.pread(write.fileno(), len(block), at) != block:
                write.seek(at)
                if write.write(block) != len(block):
                    raise OSError(errno.ENOSPC, "no room")
            at += len(block)
            progress.say(f"copied {at // 10**6} of {whole // 10**6} MB of {source.name}")
        write.truncate(at)
    progress.end()


@dataclass(frozen=True)
class Copied:
    """A copy: its file, and what the database file and its log were like when it was taken."""

    file: Path
    database: Mark
    log: Mark | None

    def is_still(self, source: Path) -> bool:
        """Whether the database and its log are still as they were when this copy was taken."""
        return mark_of(source) == self.database and mark_of(log_of(source)) == self.log


def _try_copy(source: Path, target: Path, before: Copied | None) -> Copied | None:
    """One try: the copy, or None where the database changed meanwhile. An unchanged database file is not read again."""
    for beside in ("-wal", "-shm"):
        target.with_name(target.name + beside).unlink(missing_ok=True)
    log = log_of(source)
    mark, header, log_mark = mark_of(source), _header(log), mark_of(log)
    if mark is None or not _is_settled(mark):
        return None
    if before is None or before.database != mark:
        _copy(source, target)
    if log_mark is not None:
        _copy(log, log_of(target))
    if mark_of(source) != mark or _header(log) != header:
        return None
    # A log that was just written may have been written once more since, within one step of its time.
    return Copied(target, mark, log_mark if log_mark is None or _is_settled(log_mark) else Mark(0, 0, 0, 0))


def copy_database(source: Path, folder: Path, before: Copied | None = None) -> Copied | None:
    """Copies the database `source` and its log into a folder, which is made where it is not there.

    `before` is the earlier copy in that folder, if any: it becomes the new one, and must not be open. The answer is
    None where there is no database yet. Raises CopyError where it may not be read or is never still for long enough.
    """
    folder.mkdir(mode=0o700, exist_ok=True)
    try:
        for _ in range(TRIES):
            if mark_of(source) is None:
                return None
            copied = _try_copy(source, folder / "desk.sqlite", before)
            if copied is not None:
                return copied
            before = None
            time.sleep(SETTLED)
    except PermissionError:
        raise CopyError(f"{source} may not be read by you: run this as the desk's user.") from None
    except OSError as error:
        raise CopyError(f"{source} could not be copied ({os.strerror(error.errno or 0)}): look to the disk.") from None
    raise CopyError(f"{source} changed all the while it was copied: try again in a while.")


def open_copy(copied: Copied) -> sqlite3.Connection:
    """Opens a copy read only. Texts come as bytes, whatever bytes they are."""
    connection = sqlite3.connect(f"{copied.file.as_uri()}?mode=ro", uri=True, isolation_level=None)
    connection.text_factory = bytes
    connection.execute("PRAGMA trusted_schema = OFF")
    return connection
