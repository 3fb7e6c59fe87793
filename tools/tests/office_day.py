"""A day of the office: the requests of the worked case, of examples/office/day and of each refusal, and what is due.

What is due is from docs/DESK.md and docs/CASES.md.
"""

from __future__ import annotations

import json
import unittest
from collections.abc import Callable
from dataclasses import dataclass

from tests.desk_at_work import submission
from tests.desk_description import Description

FLOW = "flagged 1\ndevice_id -> network at La/Main;->onCreate(Landroid/os/Bundle;)V @4\n"
NAMED = {"developer": "ann", "reference": "r1"}


# What sends a request of a party and gives status, content type and body of the reply.
Ask = Callable[[str | None, str, str, str | None], tuple[int, str, bytes]]


@dataclass(frozen=True)
class Asked:
    """A request of a party, and the status and the body that are due; `due` None where only the status is."""

    who: str | None
    method: str
    path: str
    body: str | None
    status: int
    due: object


def _no(text: str) -> dict[str, str]:
    return {"error": text}


def day() -> list[Asked]:
    """The requests in their order; the desk has no case when the first one comes."""
    one, other = submission("device_id_posted", "r1"), submission("declared", "r1")
    appeal = json.dumps({"text": "The number goes to our own server."})
    uphold = json.dumps(NAMED | {"ruling": "uphold"})
    queued, nulls = {"reference": "r1", "state": "queued"}, dict.fromkeys(("appeal", "decided", "outcome", "ruling"))
    return [
        Asked("rex", "POST", "/decisions", "", 409, _no("nothing queued")),
        Asked("ann", "POST", "/cases", one, 201, queued),
        Asked("ann", "POST", "/cases", one, 200, queued),
        Asked("ann", "POST", "/cases", other, 409, _no("other content under this reference")),
        Asked("ann", "GET", "/cases/r1", None, 200, nulls | queued | {"editions": 0}),
        Asked("ann", "GET", "/cases/r1/report", None, 409, _no("not decided")),
        Asked("ann", "POST", "/cases/r1/appeal", appeal, 409, _no("not decided")),
        Asked("rex", "POST", "/reviews", json.dumps(NAMED), 409, _no("not decided")),
        Asked("sue", "POST", "/rulings", uphold, 409, _no("no appeal")),
        Asked("rex", "POST", "/decisions", "", 200, NAMED | {"outcome": "flagged"}),
        Asked("ann", "GET", "/cases/r1/report", None, 200, FLOW),
        Asked("rex", "GET", "/cases", None, 200, {"cases": []}),
        Asked("ann", "POST", "/cases/r1/appeal", appeal, 200, {"reference": "r1", "state": "appealed"}),
        Asked("ann", "POST", "/cases/r1/appeal", appeal, 409, _no("appealed already")),
        Asked("sue", "GET", "/cases", None, 200, {"cases": [NAMED | {"state": "appealed"}]}),
        Asked("rex", "POST", "/rulings", uphold, 403, _no("same reviewer")),
        Asked("sue", "POST", "/rulings", uphold, 200, NAMED | {"ruling": "uphold"}),
        Asked("sue", "POST", "/rulings", uphold, 409, _no("ruled already")),
        Asked("rex", "POST", "/reviews", json.dumps(NAMED), 409, _no("decided under these lists")),
        Asked("bob", "GET", "/cases/r1", None, 404, _no("no such case")),
        Asked("ann", "GET", "/cases/r1", None, 200, None),
        Asked("ann", "GET", "/cases", None, 200, {"cases": [{"reference": "r1", "state": "ruled"}]}),
        Asked("ann", "POST", "/cases", submission("declared", "r2"), 201, {"reference": "r2", "state": "queued"}),
        Asked("sue", "POST", "/decisions", "", 200, {"developer": "ann", "outcome": "clear", "reference": "r2"}),
        Asked("ann", "POST", "/cases/r2/appeal", appeal, 409, _no("no appeal for clear")),
        Asked(None, "GET", "/cases", None, 401, _no("no such token")),
        Asked("nobody-has-it", "POST", "/decisions", "", 401, _no("no such token")),
        Asked("ann", "POST", "/decisions", "", 403, _no("wrong role")),
        Asked("rex", "GET", "/cases/r1", None, 403, _no("wrong role")),
        Asked("rex", "POST", "/reviews", "{", 400, _no("not json")),
        Asked("rex", "POST", "/reviews", '{"developer":"ann"}', 422, _no("field reference")),
        Asked("rex", "POST", "/rulings", json.dumps(NAMED | {"ruling": "maybe"}), 422, _no("field ruling")),
        Asked("ann", "POST", "/cases", submission("declared", "r 3"), 422, _no("field reference")),
        Asked("ann", "POST", "/cases", submission("declared", "r3", dex=[]), 422, _no("field dex")),
        Asked("ann", "POST", "/cases", submission("declared", "r3", layouts=1), 422, _no("field layouts")),
        Asked("ann", "POST", "/cases/r1/appeal", '{"text":""}', 422, _no("field text")),
    ]


def go_through(test: unittest.TestCase, ask: Ask) -> None:
    """Sends the requests of the day in turn: each gets the reply that is due, and as it is described."""
    description = Description()
    for asked in day():
        with test.subTest(request=f"{asked.who}: {asked.method} {asked.path} {(asked.body or '')[:60]}"):
            status, kind, body = ask(asked.who, asked.method, asked.path, asked.body)
            test.assertEqual(status, asked.status)
            description.check(asked.method, asked.path, status, kind, body)
            if asked.due is not None:
                test.assertEqual(json.loads(body) if kind == "application/json" else body.decode(), asked.due)
