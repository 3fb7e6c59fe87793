"""The stand-in says what docs/CASES.md says of its worked case, and the refusals in the order of docs/DESK.md."""

from __future__ import annotations

import json
import unittest

from tests.desk_at_work import DeskAtWork, submission


class StandinDesk(unittest.TestCase):
    def setUp(self) -> None:
        self.desk = DeskAtWork(standin=True)
        self.addCleanup(self.desk.end)

    def asks(self, who: str | None, method: str, path: str, body: str | None = None) -> tuple[int, object]:
        status, kind, text = self.desk.ask(who, method, path, body)
        return status, json.loads(text) if kind == "application/json" else text.decode()

    def test_the_worked_case_is_answered_as_the_page_of_cases_says(self) -> None:
        named = {"developer": "ann", "reference": "r1"}
        ruling = json.dumps(named | {"ruling": "uphold"})
        self.desk.set_day(100)
        one, other = submission("device_id_posted", "r1"), submission("declared", "r1")
        self.assertEqual(self.asks("ann", "POST", "/cases", one), (201, {"reference": "r1", "state": "queued"}))
        self.assertEqual(self.asks("ann", "POST", "/cases", one), (200, {"reference": "r1", "state": "queued"}))
        kept = (409, {"error": "other content under this reference"})
        self.assertEqual(self.asks("ann", "POST", "/cases", other), kept)
        self.assertEqual(self.asks("rex", "POST", "/decisions", ""), (200, named | {"outcome": "flagged"}))
        self.assertEqual(self.asks("rex", "POST", "/decisions", ""), (409, {"error": "nothing queued"}))
        self.desk.set_day(131)
        appeal, way = json.dumps({"text": "It is ours."}), "/cases/r1/appeal"
        self.assertEqual(self.asks("ann", "POST", way, appeal), (409, {"error": "too late, last day 130"}))
        self.desk.set_day(130)
        self.assertEqual(self.asks("ann", "POST", way, appeal), (200, {"reference": "r1", "state": "appealed"}))
        self.assertEqual(self.asks("rex", "POST", "/rulings", ruling), (403, {"error": "same reviewer"}))
        self.assertEqual(self.asks("sue", "POST", "/rulings", ruling), (200, named | {"ruling": "uphold"}))
        self.assertEqual(self.asks("sue", "POST", "/rulings", ruling), (409, {"error": "ruled already"}))
        self.desk.kill()
        with (self.desk.office / "lists.toml").open("a") as lists:
            lists.write("# other lists\n")
        self.desk.begin()
        self.desk.set_day(140)
        review = json.dumps(named)
        self.assertEqual(self.asks("rex", "POST", "/reviews", review), (200, named | {"outcome": "flagged"}))
        self.assertEqual(self.asks("rex", "POST", "/reviews", review), (409, {"error": "decided under these lists"}))
        shown = {"appeal": None, "decided": 140, "editions": 2, "outcome": "flagged", "reference": "r1", "ruling": None,
                 "state": "decided"}
        self.assertEqual(self.asks("ann", "GET", "/cases/r1"), (200, shown))

    def test_a_refusal_comes_in_the_order_route_method_token_role_body(self) -> None:
        self.assertEqual(self.asks(None, "GET", "/cases?x"), (404, {"error": "no route"}))
        self.assertEqual(self.asks(None, "GET", "/decisions"), (405, {"error": "no such method"}))
        self.assertEqual(self.asks(None, "POST", "/decisions", ""), (401, {"error": "no such token"}))
        self.assertEqual(self.asks("ann", "POST", "/reviews", "x"), (403, {"error": "wrong role"}))
        self.assertEqual(self.asks("rex", "POST", "/reviews", "x"), (400, {"error": "not json"}))
        self.assertEqual(self.asks("rex", "POST", "/reviews", "[]"), (422, {"error": "field developer"}))


if __name__ == "__main__":
    unittest.main()
