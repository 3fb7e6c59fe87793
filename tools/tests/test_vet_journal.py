"""A desk of the program whose cases are in a journal: whatever stands in the file, its place, or beside it.

Where no proved program is built, and VET_DESK names none, the desk is a stand-in that has no journal; nothing is run.
"""
from __future__ import annotations

import unittest
from pathlib import Path

from tests.desk_at_work import DeskAtWork, submission

MAGIC = b"VETJRNL1"
EMPTY = MAGIC + b"\0"


def number(value: int) -> bytes:
    return value.to_bytes(8, "little")


def text(content: bytes) -> bytes:
    return number(len(content)) + content


class JournalTest(unittest.TestCase):
    def setUp(self) -> None:
        self.desk = DeskAtWork()
        self.addCleanup(self.desk.end)
        if self.desk.is_standin:
            self.skipTest("no proved program is built here")
        self.desk.kill()
        self.journal = self.desk.office / "desk.journal"

    def shows(self, journal: bytes) -> tuple[int, bytes]:
        """The status of a developer's list over this journal, and what the file has afterwards."""
        self.journal.write_bytes(journal)
        self.desk.begin()
        status, _, _ = self.desk.ask("ann", "GET", "/cases")
        self.desk.kill()
        return status, self.journal.read_bytes()

    def states(self) -> dict[str, bytes]:
        """What else is in the office: a database and its parts."""
        return {path.name: path.read_bytes() for path in Path(self.desk.office).glob("desk.sqlite*")}

    def test_at_most_nine_bytes_become_the_empty_journal(self) -> None:
        for journal in (b"", EMPTY[:1], EMPTY[:8], EMPTY, b"X" * 9):
            with self.subTest(journal):
                self.assertEqual((200, EMPTY), self.shows(journal))
        self.assertEqual({}, self.states())

    def test_a_length_beyond_the_end_is_cut_off_and_other_bytes_are_refused(self) -> None:
        for length in (1, 2**32, 2**63, 2**64 - 1):
            with self.subTest(length):
                self.assertEqual((200, EMPTY), self.shows(MAGIC + b"\1" + number(length)))
        for journal in (b"X" * 10, MAGIC + b"\1" + number(1) + b"\7\0"):
            with self.subTest(journal):
                self.assertEqual((503, journal), self.shows(journal))
        self.assertEqual({}, self.states())

    def test_a_folder_in_its_place_makes_no_database(self) -> None:
        self.journal.mkdir()
        self.desk.begin()
        self.assertEqual(503, self.desk.ask("ann", "GET", "/cases")[0])
        self.assertEqual({}, self.states())

    def test_a_database_beside_it_stays_as_it_is(self) -> None:
        self.desk.begin()
        self.desk.done("ann", "POST", "/cases", submission("declared", "in_the_database"))
        self.desk.kill()
        before = self.states()
        self.assertIn("desk.sqlite", before)
        self.journal.write_bytes(b"")
        self.desk.begin()
        self.assertEqual(404, self.desk.ask("ann", "GET", "/cases/in_the_database")[0])
        self.desk.done("ann", "POST", "/cases", submission("declared", "in_the_journal"))
        self.assertEqual(before, self.states())

    def test_each_change_is_written_as_the_format_has_it(self) -> None:
        self.journal.write_bytes(b"")
        self.desk.begin()
        self.desk.done("ann", "POST", "/cases", submission("device_id_posted", "r1"))
        added = self.journal.read_bytes()
        head = b"\0" + text(b"ann") + text(b"r1")
        self.assertTrue(added.startswith(MAGIC + b"\1"))
        self.assertEqual(len(added), 9 + 8 + int.from_bytes(added[9:17], "little") + 1)
        self.assertTrue(added[17:].startswith(head), added[17:60])
        self.desk.done("rex", "POST", "/decisions")
        self.desk.done("ann", "POST", "/cases/r1/appeal", '{"text": "not so"}')
        decided = self.journal.read_bytes()
        self.assertTrue(decided.startswith(added[:-1]))
        # An appeal: its kind, the case, the day in four bytes, the text.
        appeal = b"\2" + text(b"ann") + text(b"r1")
        payload = len(appeal) + 4 + len(text(b"not so"))
        self.assertTrue(decided.endswith(text(b"not so") + b"\0"))
        self.assertIn(b"\1" + number(payload) + appeal, decided)


if __name__ == "__main__":
    unittest.main()
