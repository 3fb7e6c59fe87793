"""A copy of a database that is being written is one state of it, and the database itself is not opened."""

from __future__ import annotations

import os
import sqlite3
import tempfile
import time
import unittest
from pathlib import Path
from unittest.mock import patch

from vet_tools import desk_copy
from vet_tools.desk_copy import CopyError, copy_database, log_of, open_copy


class Copies(unittest.TestCase):
    def setUp(self) -> None:
        folder = tempfile.TemporaryDirectory()
        self.addCleanup(folder.cleanup)
        self.top = Path(folder.name)
        self.source = self.top / "desk.sqlite"
        self.base = sqlite3.connect(self.source, isolation_level=None)
        self.addCleanup(self.base.close)
        for order in ("locking_mode = EXCLUSIVE", "journal_mode = WAL", "wal_autocheckpoint = 0"):
            self.base.execute(f"PRAGMA {order}")
        self.base.execute("CREATE TABLE pair (one INTEGER, two INTEGER)")
        self.base.execute("INSERT INTO pair VALUES (0, 0)")
        self.base.execute("CREATE TABLE room (bytes BLOB)")
        time.sleep(0.1)

    def write(self, number: int) -> None:
        """One transaction: the two numbers are always the same."""
        self.base.execute("BEGIN")
        self.base.execute("UPDATE pair SET one = ?", (number,))
        self.base.execute("UPDATE pair SET two = ?", (number,))
        self.base.execute("INSERT INTO room VALUES (zeroblob(20000))")
        self.base.execute("COMMIT")

    def pair(self, copied: desk_copy.Copied) -> tuple[int, int]:
        connection = open_copy(copied)
        try:
            return connection.execute("SELECT one, two FROM pair").fetchone()
        finally:
            connection.close()

    def test_a_copy_has_what_stands_in_the_log_alone(self) -> None:
        self.write(1)
        copied = copy_database(self.source, self.top / "1")
        self.assertEqual(self.pair(copied), (1, 1))
        self.assertEqual(self.source.stat().st_nlink, 1)
        self.write(2)
        self.assertFalse(copied.is_still(self.source))
        later = copy_database(self.source, self.top / "1", copied)
        self.assertEqual(self.pair(later), (2, 2))

    def test_a_copy_is_brought_up_to_date_and_only_what_changed_is_written(self) -> None:
        for number in range(1, 200):
            self.write(number)
        self.base.execute("PRAGMA wal_checkpoint(RESTART)")
        time.sleep(0.1)
        copied = copy_database(self.source, self.top / "1")
        self.write(200)
        time.sleep(0.1)
        with patch.object(desk_copy, "_copy", wraps=desk_copy._copy) as copy:
            copied = copy_database(self.source, self.top / "1", copied)
        self.assertEqual([call.args[0].name for call in copy.call_args_list], ["desk.sqlite-wal"])
        self.assertEqual(self.pair(copied), (200, 200))
        self.base.execute("DELETE FROM room")
        self.base.execute("VACUUM")
        self.base.execute("PRAGMA wal_checkpoint(TRUNCATE)")
        time.sleep(0.1)
        copied = copy_database(self.source, self.top / "1", copied)
        self.assertEqual(self.pair(copied), (200, 200))
        self.assertEqual(copied.file.read_bytes(), self.source.read_bytes())

    def test_a_file_that_changed_while_it_was_copied_is_copied_again(self) -> None:
        self.write(1)
        copy, times = desk_copy._copy, []

        def disturbed(source: Path, target: Path) -> None:
            copy(source, target)
            times.append(source.name)
            if times == ["desk.sqlite"]:
                self.write(2)
                self.base.execute("PRAGMA wal_checkpoint(TRUNCATE)")
                self.write(3)

        with patch.object(desk_copy, "_copy", disturbed):
            copied = copy_database(self.source, self.top / "1")
        self.assertEqual(self.pair(copied), (3, 3))
        self.assertEqual(times.count("desk.sqlite"), 2)

    def test_a_log_that_was_begun_anew_meanwhile_is_copied_again(self) -> None:
        self.write(1)
        self.base.execute("PRAGMA wal_checkpoint(RESTART)")
        time.sleep(0.1)
        copy, times = desk_copy._copy, []

        def disturbed(source: Path, target: Path) -> None:
            copy(source, target)
            times.append(source.name)
            if times == ["desk.sqlite", "desk.sqlite-wal"]:
                self.write(2)

        with patch.object(desk_copy, "_copy", disturbed):
            copied = copy_database(self.source, self.top / "1")
        self.assertEqual(self.pair(copied), (2, 2))
        self.assertGreater(len(times), 2)

    def test_a_copy_taken_at_any_moment_is_one_state(self) -> None:
        copied = None
        for number in range(1, 40):
            self.write(number)
            if number % 7 == 0:
                self.base.execute("PRAGMA wal_checkpoint(RESTART)")
            copied = copy_database(self.source, self.top / "1", copied)
            self.assertEqual(self.pair(copied), (number, number))

    def test_there_may_be_no_database_and_one_may_never_be_still(self) -> None:
        self.assertIsNone(copy_database(self.top / "none.sqlite", self.top / "1"))
        with patch.object(desk_copy, "TRIES", 2), patch.object(desk_copy, "SETTLED", 0.02):
            os.utime(self.source, ns=(time.time_ns(), time.time_ns() + 10**7))
            with patch.object(desk_copy, "_is_settled", lambda mark: False):
                with self.assertRaisesRegex(CopyError, "changed all the while"):
                    copy_database(self.source, self.top / "2")

    def test_the_copy_is_for_its_user_alone_and_is_not_written(self) -> None:
        self.source.chmod(0o644)
        self.write(1)
        copied = copy_database(self.source, self.top / "1")
        for file in (copied.file, log_of(copied.file)):
            self.assertEqual(file.stat().st_mode & 0o777, 0o600)
        self.assertEqual(copied.file.parent.stat().st_mode & 0o777, 0o700)
        connection = open_copy(copied)
        with self.assertRaises(sqlite3.OperationalError):
            connection.execute("UPDATE pair SET one = 9")
        connection.close()


if __name__ == "__main__":
    unittest.main()
