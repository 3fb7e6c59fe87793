"""The command `deploy/backup`: a copy of a desk's database or journal as one file, while the desk runs."""

from __future__ import annotations

import argparse
import os
import re
import shutil
import sqlite3
import sys
import tempfile
import time
from contextlib import closing
from pathlib import Path

from vet_tools.desk_copy import CopyError, copy_database, open_copy
from vet_tools.shown import visible

EXAMPLE = """\
example:
  deploy/backup /var/lib/vet /var/backups/vet --keep 14
      writes /var/backups/vet/desk-2026-11-29T22-30-00Z.sqlite and prints its name, and takes away all but the latest
      14 of them.

The desk runs on meanwhile: its files are read and never opened as a database. The copy was tested by SQLite before it
got its name, so whatever has that name is whole. To bring one back: stop the desk, move desk.sqlite and
desk.sqlite-wal away, copy the backup to desk.sqlite, start the desk. Where the office has a desk.journal the cases are
there, and the backup is desk-DATE.journal: a copy of it, which is a journal whenever it is made.

exit status: 0 where there is a new backup, 1 where there is none; the older ones are as they were then.
"""
NAME = re.compile(r"desk-\d{4}-\d\d-\d\dT\d\d-\d\d-\d\dZ\.(sqlite|journal)")
LEFT_OVER = 86_400


class NoBackup(Exception):
    """Why there is no new backup, in one sentence that says what to do."""


def parser() -> argparse.ArgumentParser:
    """The words of the command line."""
    made = argparse.ArgumentParser(
        "backup", description="Copies a desk's cases while the desk runs, and keeps the latest copies.",
        epilog=EXAMPLE, formatter_class=argparse.RawDescriptionHelpFormatter,
    )
    made.add_argument("office", metavar="OFFICE", type=Path, help="the folder of the office, as `vet serve` has it")
    made.add_argument("folder", metavar="FOLDER", type=Path, help="where the backups lie")
    made.add_argument("--keep", metavar="N", type=int, default=14, help="how many are kept (14)")
    return made


def write_whole(copied_from: sqlite3.Connection, file: Path) -> None:
    """Writes the database behind a connection as one file, by SQLite's own backup.

    Raises NoBackup where it is damaged.
    """
    with closing(sqlite3.connect(file, isolation_level=None)) as target:
        copied_from.backup(target)
        if target.execute("PRAGMA integrity_check").fetchall() != [("ok",)]:
            raise NoBackup("desk.sqlite is damaged: keep the older backups, and look to the disk.")
    with file.open("rb+") as written:
        os.fsync(written.fileno())


def write_journal(journal: Path, file: Path) -> None:
    """Copies a journal from front to back. The desk opens a record's gate, which stands before it, once it is written."""
    shutil.copyfile(journal, file)
    with file.open("rb+") as written:
        os.fsync(written.fileno())


def write_database(office: Path, made: Path, file: Path) -> None:
    """Writes the office's database as one file, with the copy of its files in the folder `made`."""
    copied = copy_database(office / "desk.sqlite", made / "copy")
    if copied is None:
        raise NoBackup(f"{office}/desk.sqlite is not there: is this the folder of an office whose desk ran?")
    with closing(open_copy(copied)) as connection:
        write_whole(connection, file)


def keep_latest(folder: Path, keep: int) -> None:
    """Takes away all backups but the latest ones, and what runs that were killed left a day ago or earlier."""
    backups = sorted(file for file in folder.iterdir() if NAME.fullmatch(file.name))
    for file in backups[:-keep]:
        file.unlink()
    for left in folder.glob(".desk-*"):
        if time.time() - left.stat().st_mtime > LEFT_OVER:
            shutil.rmtree(left, ignore_errors=True)


def back_up(office: Path, folder: Path, keep: int) -> Path:
    """Writes a new backup into `folder` and gives its file. Raises NoBackup or CopyError; then nothing has changed."""
    if keep < 1:
        raise NoBackup("--keep is 1 or more.")
    if not folder.is_dir():
        raise NoBackup(f"{folder} is no folder: make it, for the desk's user alone.")
    journal = office / "desk.journal"
    kind = "journal" if journal.exists() else "sqlite"
    target = folder / time.strftime(f"desk-%Y-%m-%dT%H-%M-%SZ.{kind}", time.gmtime())
    with tempfile.TemporaryDirectory(prefix=".desk-", dir=folder) as made:
        whole = Path(made) / "whole"
        if kind == "journal":
            write_journal(journal, whole)
        else:
            write_database(office, Path(made), whole)
        os.rename(whole, target)
    _sync(folder)
    keep_latest(folder, keep)
    return target


def _sync(folder: Path) -> None:
    opened = os.open(folder, os.O_RDONLY | os.O_DIRECTORY)
    try:
        os.fsync(opened)
    finally:
        os.close(opened)


def main(arguments: list[str] | None = None) -> int:
    """Runs the command and gives its exit status."""
    words = parser().parse_args(arguments)
    os.umask(0o077)
    try:
        print(back_up(words.office, words.folder, words.keep))
    except (NoBackup, CopyError) as error:
        print(f"backup: {visible(str(error))}", file=sys.stderr)
        return 1
    except sqlite3.Error:
        print("backup: desk.sqlite is no whole database: keep the older backups, and look to the disk.",
              file=sys.stderr)
        return 1
    except OSError as error:
        print(f"backup: {visible(os.strerror(error.errno or 0))}: see the room and the rights of {words.folder}.",
              file=sys.stderr)
        return 1
    return 0
