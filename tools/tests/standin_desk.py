"""A desk for tests, that answers by the tables of docs/DESK.md and docs/CASES.md.

`python3 -m tests.standin_desk serve OFFICE N` runs it. It stands in where the program is not built. It keeps the tables
that crates/case_tables has, holds the database for itself as the program does, and knows of apps only what
examples/expected.txt says. A file `day` in the office's folder says which day it is.
"""

from __future__ import annotations

import base64
import binascii
import hashlib
import json
import re
import sqlite3
import sys
import time
import tomllib
from functools import cache
from http.server import BaseHTTPRequestHandler, HTTPServer
from pathlib import Path

from vet_tools.desk_cases import STATES

TOP = Path(__file__).resolve().parents[2]
NAME = re.compile(r"[A-Za-z0-9._-]{1,64}")
FORMS = ("manifest", "layouts", "declaration")
TABLES = re.search(r'const TABLES: &str = "(.*?)";', (TOP / "crates/case_tables/src/tables.rt").read_text(), re.S)[1]


class No(Exception):
    """Nothing was done: the status and the text."""


@cache
def answers() -> dict[tuple[bytes, ...], str]:
    """The report of each example, by its forms and its DEX file."""
    found = {}
    for part in (TOP / "examples/expected.txt").read_text().split("\n\n"):
        head, *lines = part.strip().splitlines()
        folder = TOP / "examples" / head.split()[0]
        names = [*(f"{form}.toml" for form in FORMS), "classes.dex"]
        found[tuple((folder / name).read_bytes() for name in names)] = "\n".join(lines) + "\n"
    return found


class Desk:
    """The cases, by the rules of docs/CASES.md."""

    def __init__(self, office: Path) -> None:
        self.office = office
        self.form = tomllib.loads((office / "office.toml").read_text())
        self.edition = hashlib.sha256((office / "lists.toml").read_bytes()).digest()
        self.base = sqlite3.connect(office / "desk.sqlite", isolation_level=None)
        self.base.execute("PRAGMA locking_mode = EXCLUSIVE")
        self.base.execute("PRAGMA journal_mode = WAL")
        self.base.executescript(TABLES)
        self.base.execute("INSERT OR IGNORE INTO version VALUES (1, 2)")
        self.base.execute(STATES)

    def today(self) -> int:
        file = self.office / "day"
        return int(file.read_text()) if file.exists() else int(time.time()) // 86_400

    def one(self, query: str, *values: object) -> tuple | None:
        return self.base.execute(query, values).fetchone()

    def case(self, developer: str, reference: str) -> tuple[int, str]:
        found = self.one("SELECT number, state FROM states WHERE party = ? AND reference = ?", developer, reference)
        if found is None:
            raise No(404, "no such case")
        return found

    def dex(self, number: int) -> list[bytes]:
        rows = self.base.execute("SELECT bytes FROM dex WHERE number = ? ORDER BY place", (number,))
        return [row[0] for row in rows]

    def last(self, number: int) -> tuple | None:
        return self.one(
            "SELECT e.place, e.outcome, e.report, e.reviewer, e.day, a.day, r.word FROM entries e"
            " LEFT JOIN entry_appeals a USING (number, place) LEFT JOIN entry_rulings r USING (number, place)"
            " WHERE e.number = ? ORDER BY e.place DESC LIMIT 1", number)

    def submit(self, who: str, reference: str, content: list[bytes]) -> tuple[int, object]:
        old = self.one("SELECT number, state FROM states WHERE party = ? AND reference = ?", who, reference)
        if old is not None:
            forms = self.one("SELECT manifest, layouts, declaration FROM cases WHERE number = ?", old[0])
            if [*forms, *self.dex(old[0])] != content:
                raise No(409, "other content under this reference")
            return 200, {"reference": reference, "state": old[1]}
        open_cases = self.one("SELECT count(*) FROM states WHERE party = ? AND state = 'queued'", who)[0]
        if open_cases >= 1000:
            raise No(409, "too many open cases, limit 1000")
        number = self.base.execute(
            "INSERT INTO cases (party, reference, manifest, layouts, declaration) VALUES (?, ?, ?, ?, ?)",
            (who, reference, *content[:3])).lastrowid
        for place, data in enumerate(content[3:]):
            self.base.execute("INSERT INTO dex VALUES (?, ?, ?)", (number, place, data))
        return 201, {"reference": reference, "state": "queued"}

    def judge(self, who: str, number: int, developer: str, reference: str) -> tuple[int, object]:
        forms = self.one("SELECT manifest, layouts, declaration FROM cases WHERE number = ?", number)
        report = answers().get((*forms, *self.dex(number)), "refused manifest.toml: not toml\n")
        outcome = report.split()[0]
        place = self.one("SELECT count(*) FROM entries WHERE number = ?", number)[0]
        self.base.execute("INSERT INTO entries VALUES (?, ?, ?, ?, ?, ?, ?)",
                          (number, place, outcome, report.encode(), self.edition, who, self.today()))
        return 200, {"developer": developer, "outcome": outcome, "reference": reference}

    def decide(self, who: str) -> tuple[int, object]:
        first = self.one("SELECT number, party, reference FROM states WHERE state = 'queued' ORDER BY number LIMIT 1")
        if first is None:
            raise No(409, "nothing queued")
        return self.judge(who, *first)

    def review(self, who: str, developer: str, reference: str) -> tuple[int, object]:
        number, state = self.case(developer, reference)
        if state == "queued":
            raise No(409, "not decided")
        if self.one("SELECT 1 FROM entries WHERE number = ? AND lists = ?", number, self.edition):
            raise No(409, "decided under these lists")
        if state == "appealed":
            raise No(409, "appeal open")
        return self.judge(who, number, developer, reference)

    def appeal(self, who: str, reference: str, text: str) -> tuple[int, object]:
        number, _ = self.case(who, reference)
        entry = self.last(number)
        if entry is None:
            raise No(409, "not decided")
        if entry[1] in ("clear", "refused"):
            raise No(409, f"no appeal for {entry[1]}")
        if entry[5] is not None:
            raise No(409, "appealed already")
        last_day = entry[4] + self.form["appeal_days"]
        if self.today() > last_day:
            raise No(409, f"too late, last day {last_day}")
        row = (number, entry[0], self.today(), text.encode())
        self.base.execute("INSERT INTO entry_appeals VALUES (?, ?, ?, ?)", row)
        return 200, {"reference": reference, "state": "appealed"}

    def rule(self, who: str, developer: str, reference: str, ruling: str) -> tuple[int, object]:
        number, _ = self.case(developer, reference)
        entry = self.last(number)
        if entry is None or entry[5] is None:
            raise No(409, "no appeal")
        if entry[6] is not None:
            raise No(409, "ruled already")
        if entry[3] == who:
            raise No(403, "same reviewer")
        row = (number, entry[0], who, self.today(), ruling)
        self.base.execute("INSERT INTO entry_rulings VALUES (?, ?, ?, ?, ?)", row)
        return 200, {"developer": developer, "reference": reference, "ruling": ruling}

    def show(self, who: str, reference: str) -> tuple[int, object]:
        number, state = self.case(who, reference)
        entry = self.last(number) or (None,) * 7
        count = self.one("SELECT count(*) FROM entries WHERE number = ?", number)[0]
        return 200, {"appeal": entry[5], "decided": entry[4], "editions": count, "outcome": entry[1],
                     "reference": reference, "ruling": entry[6], "state": state}

    def report(self, who: str, reference: str) -> tuple[int, object]:
        entry = self.last(self.case(who, reference)[0])
        if entry is None:
            raise No(409, "not decided")
        return 200, entry[2]

    def list(self, who: str, role: str) -> tuple[int, object]:
        if role == "developer":
            rows = self.base.execute("SELECT reference, state FROM states WHERE party = ? ORDER BY reference", (who,))
            return 200, {"cases": [{"reference": reference, "state": state} for reference, state in rows]}
        rows = self.base.execute(
            "SELECT party, reference, state FROM states WHERE state = 'appealed' ORDER BY party, reference")
        return 200, {"cases": [dict(zip(("developer", "reference", "state"), row)) for row in rows]}


ROUTES = {
    "/cases": {"GET": ("list", None), "POST": ("submit", "developer")},
    "/cases/REF": {"GET": ("show", "developer")},
    "/cases/REF/report": {"GET": ("report", "developer")},
    "/cases/REF/appeal": {"POST": ("appeal", "developer")},
    "/decisions": {"POST": ("decide", "reviewer")},
    "/reviews": {"POST": ("review", "reviewer")},
    "/rulings": {"POST": ("rule", "reviewer")},
}


class Handler(BaseHTTPRequestHandler):
    """Answers one request of a connection."""

    desk: Desk
    timeout = 10

    def log_message(self, *_: object) -> None:
        pass

    def do_GET(self) -> None:
        self._answer()

    def do_POST(self) -> None:
        self._answer()

    def send_error(self, code: int, *_: object, **__: object) -> None:
        self._reply(400, {"error": "bad request"})

    def _answer(self) -> None:
        try:
            status, body = self._run()
        except No as no:
            status, body = no.args[0], {"error": no.args[1]}
        self._reply(status, body)

    def _reply(self, status: int, body: object) -> None:
        data = body if isinstance(body, bytes) else json.dumps(body, separators=(",", ":"), sort_keys=True).encode()
        self.send_response(status)
        self.send_header("content-type", "text/plain" if isinstance(body, bytes) else "application/json")
        self.send_header("content-length", str(len(data)))
        self.send_header("connection", "close")
        self.end_headers()
        self.wfile.write(data)

    def _run(self) -> tuple[int, object]:
        body = self._body()
        found = re.fullmatch(r"/cases/([^/]+)(/report|/appeal)?", self.path)
        page = f"/cases/REF{found[2] or ''}" if found else self.path
        if page not in ROUTES:
            raise No(404, "no route")
        if self.command not in ROUTES[page]:
            raise No(405, "no such method")
        party = next((p for p in self.desk.form["party"] if p["token"] == self.headers.get("x-desk-token")), None)
        if party is None:
            raise No(401, "no such token")
        act, role = ROUTES[page][self.command]
        if role not in (None, party["role"]):
            raise No(403, "wrong role")
        words = [found[1]] if found else [party["role"]] if act == "list" else []
        return getattr(self.desk, act)(party["name"], *words, *self._words(act, body))

    def _body(self) -> bytes:
        length = self.headers.get("content-length")
        if self.headers.get("transfer-encoding") or (length is None and self.command == "POST"):
            raise No(411, "length required")
        if length is not None and not re.fullmatch("[0-9]{1,10}", length):
            raise No(400, "bad request")
        if int(length or 0) > 67_108_864:
            raise No(413, "body too long")
        return self.rfile.read(int(length or 0))

    def _words(self, act: str, body: bytes) -> list[object]:
        if act not in ("submit", "appeal", "review", "rule"):
            return []
        try:
            value = json.loads(body)
        except ValueError:
            raise No(400, "not json") from None
        if act == "submit":
            reference = text(value, "reference", NAME)
            forms = [text(value, field, None).encode() for field in FORMS]
            return [reference, [*forms, *dex_files(value)]]
        if act == "appeal":
            return [text(value, "text", re.compile(r".{1,4000}", re.S))]
        names = [text(value, "developer", NAME), text(value, "reference", NAME)]
        return names + ([text(value, "ruling", re.compile("uphold|overturn"))] if act == "rule" else [])


def text(value: object, field: str, form: re.Pattern[str] | None) -> str:
    found = value.get(field) if isinstance(value, dict) else None
    if not isinstance(found, str) or (form is not None and not form.fullmatch(found)):
        raise No(422, f"field {field}")
    return found


def dex_files(value: dict[str, object]) -> list[bytes]:
    found = value.get("dex")
    if not isinstance(found, list) or not 1 <= len(found) <= 16 or not all(isinstance(one, str) for one in found):
        raise No(422, "field dex")
    try:
        return [base64.b64decode(one, validate=True) for one in found]
    except binascii.Error:
        raise No(422, "field dex") from None


def main() -> int:
    office, most = Path(sys.argv[2]), int(sys.argv[3])
    Handler.desk = Desk(office)
    with HTTPServer(("127.0.0.1", Handler.desk.form["port"]), Handler) as server:
        for _ in range(most):
            server.handle_request()
    print(f"served {most}")
    return 0


if __name__ == "__main__":
    sys.exit(main())
