"""A desk over databases that SQLite's own library made, with cases in every state.

Where no proved program is built, and VET_DESK names none, the desk is a stand-in.
"""

from __future__ import annotations

import json
import sqlite3
import time
import unittest
from contextlib import closing

from tests.desk_at_work import TOP, DeskAtWork

DATA = TOP / "crates/desk_cases/data"
LISTS = {
    "ann": {"cases": [{"reference": "r0", "state": "decided"}, {"reference": "r1", "state": "queued"},
                      {"reference": "r2", "state": "decided"}, {"reference": "r3", "state": "appealed"},
                      {"reference": "r4", "state": "ruled"}, {"reference": "r5", "state": "decided"}]},
    "bob": {"cases": [{"reference": "r1", "state": "queued"}, {"reference": "r2", "state": "appealed"}]},
    "rex": {"cases": [{"developer": "ann", "reference": "r3", "state": "appealed"},
                      {"developer": "bob", "reference": "r2", "state": "appealed"}]},
}
SHOWN = {
    "r0": {"appeal": None, "decided": 100, "editions": 1, "outcome": "refused", "ruling": None, "state": "decided"},
    "r1": {"appeal": None, "decided": None, "editions": 0, "outcome": None, "ruling": None, "state": "queued"},
    "r2": {"appeal": None, "decided": 100, "editions": 1, "outcome": "flagged", "ruling": None, "state": "decided"},
    "r3": {"appeal": 101, "decided": 100, "editions": 1, "outcome": "undecided", "ruling": None, "state": "appealed"},
    "r4": {"appeal": 101, "decided": 100, "editions": 1, "outcome": "flagged", "ruling": "uphold", "state": "ruled"},
    "r5": {"appeal": None, "decided": 103, "editions": 2, "outcome": "clear", "ruling": None, "state": "decided"},
}
REPORTS = {"r0": b"refused 9", "r2": b"flagged 2", "r3": b"undecided 3", "r4": b"flagged 4", "r5": b"clear"}


def error(text: str) -> bytes:
    return json.dumps({"error": text}, separators=(",", ":")).encode()


class DatabaseTest(unittest.TestCase):
    def desk_over(self, *files: str) -> DeskAtWork:
        """A desk whose database SQLite made by the statements of these files."""
        desk = DeskAtWork()
        self.addCleanup(desk.end)
        desk.kill()
        for old in desk.office.glob("desk.sqlite*"):
            old.unlink()
        with closing(sqlite3.connect(desk.office / "desk.sqlite", isolation_level=None)) as base:
            for name in files:
                base.executescript((DATA / name).read_text())
        desk.begin()
        return desk

    def assert_told(self, desk: DeskAtWork) -> None:
        """Each reply about the cases is the one that is due."""
        for who, due in LISTS.items():
            self.assertEqual(due, json.loads(desk.done(who, "GET", "/cases")), who)
        for reference, due in SHOWN.items():
            self.assertEqual({"reference": reference} | due,
                             json.loads(desk.done("ann", "GET", f"/cases/{reference}")), reference)
        self.assertEqual((409, error("not decided")), desk.ask("ann", "GET", "/cases/r1/report")[::2])
        for reference, due in REPORTS.items():
            self.assertEqual(due, desk.done("ann", "GET", f"/cases/{reference}/report"), reference)
        self.assertEqual((404, error("no such case")), desk.ask("bob", "GET", "/cases/r3")[::2])
        self.assertEqual((409, error("other content under this reference")), desk.ask(
            "ann", "POST", "/cases", json.dumps({"reference": "r2", "manifest": "", "layouts": "", "declaration": "",
                                                 "dex": [""]}))[::2])

    def assert_goes_on(self, desk: DeskAtWork) -> None:
        """The queue is decided in its order, and an appeal is ruled on."""
        for developer in ("ann", "bob"):
            reply = json.loads(desk.done("rex", "POST", "/decisions"))
            self.assertEqual((developer, "r1", "refused"),
                             (reply["developer"], reply["reference"], reply["outcome"]))
        self.assertEqual((409, error("nothing queued")), desk.ask("rex", "POST", "/decisions")[::2])
        ruling = json.dumps({"developer": "ann", "reference": "r3", "ruling": "overturn"})
        desk.done("sue", "POST", "/rulings", ruling)
        self.assertEqual({"cases": LISTS["rex"]["cases"][1:]}, json.loads(desk.done("rex", "GET", "/cases")))

    def test_cases_in_every_state_are_told(self) -> None:
        desk = self.desk_over("version_2.sql")
        self.assert_told(desk)
        self.assert_goes_on(desk)

    def test_what_an_earlier_desk_noted_beside_them_is_let_go(self) -> None:
        desk = self.desk_over("version_2.sql", "states.sql")
        self.assert_told(desk)
        self.assert_goes_on(desk)
        desk.kill()
        desk.begin()
        self.assertEqual(json.loads(desk.done("ann", "GET", "/cases"))["cases"][1]["state"], "decided")

    def test_a_case_that_no_desk_writes_holds_nobody_up(self) -> None:
        desk = self.desk_over("version_2.sql", "inconsistent.sql")
        if desk.is_standin:
            self.skipTest("no proved program is built here")
        self.assertEqual(LISTS["ann"], json.loads(desk.done("ann", "GET", "/cases")))
        self.assertEqual((503, error("store failed")), desk.ask("ann", "GET", "/cases/r2")[::2])
        self.assertEqual("bob", json.loads(desk.done("rex", "POST", "/decisions"))["developer"])
        self.assertEqual((503, error("store failed")), desk.ask("rex", "POST", "/decisions")[::2])
        self.assertEqual({"reference": "r5"} | SHOWN["r5"], json.loads(desk.done("ann", "GET", "/cases/r5")))

    def test_what_needs_no_content_reads_none(self) -> None:
        desk = self.desk_over("version_2.sql")
        if desk.is_standin:
            self.skipTest("no proved program is built here")
        desk.kill()
        with closing(sqlite3.connect(desk.office / "desk.sqlite", isolation_level=None)) as base:
            base.execute("UPDATE dex SET bytes = zeroblob(48000000) WHERE place = 0 AND number IN (1, 2)")
            base.execute("UPDATE cases SET manifest = zeroblob(4000000) WHERE number IN (1, 2)")
            base.execute("UPDATE entries SET day = ? WHERE number = 1", (int(time.time() // 86400),))
        desk.begin()
        desk.done("ann", "GET", "/cases")
        named = {"developer": "ann", "reference": "r3"}
        for who, method, path, body in (
                ("ann", "GET", "/cases", None), ("rex", "GET", "/cases", None), ("ann", "GET", "/cases/r2", None),
                ("ann", "GET", "/cases/r2/report", None), ("ann", "POST", "/cases/r2/appeal", {"text": "not so"}),
                ("sue", "POST", "/rulings", named | {"ruling": "uphold"})):
            before = desk.bytes_read()
            desk.done(who, method, path, None if body is None else json.dumps(body))
            self.assertLess(desk.bytes_read() - before, 300_000, path)


if __name__ == "__main__":
    unittest.main()
