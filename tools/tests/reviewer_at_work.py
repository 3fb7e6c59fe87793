"""A run of tools/reviewer for tests, and what a person does with its pages: looks, fills in a form, sends it."""

from __future__ import annotations

import http.client
import os
import subprocess
import tempfile
import time
from dataclasses import dataclass
from html.parser import HTMLParser
from pathlib import Path
from urllib.parse import urlencode, urlsplit

from tests.desk_at_work import TOOLS


@dataclass
class Reply:
    """What came back: status, head and text."""

    status: int
    head: http.client.HTTPMessage
    text: str


class Page(HTMLParser):
    """The forms, the text and the elements of a page."""

    def __init__(self, text: str) -> None:
        super().__init__()
        self.forms: list[tuple[str, str, dict[str, str]]] = []
        self.words: list[str] = []
        self.elements: list[tuple[str, dict[str, str | None]]] = []
        self._form: tuple[str, dict[str, str]] | None = None
        self.feed(text)

    def handle_starttag(self, tag: str, attrs: list[tuple[str, str | None]]) -> None:
        values = dict(attrs)
        self.elements.append((tag, values))
        if tag == "form":
            self._form = (values.get("action") or "", {})
        if tag == "input" and self._form:
            self._form[1][values.get("name") or ""] = values.get("value") or ""
        if tag == "button" and self._form:
            self.forms.append(("", *self._form))

    def handle_data(self, data: str) -> None:
        self.words.append(data)
        if self.forms and self._form and not self.forms[-1][0]:
            self.forms[-1] = (data.strip(), *self.forms[-1][1:])

    def handle_endtag(self, tag: str) -> None:
        if tag == "form":
            self._form = None

    @property
    def text(self) -> str:
        """All words of the page with single spaces between them."""
        return " ".join(" ".join(self.words).split())

    def form(self, label: str) -> tuple[str, dict[str, str]]:
        """The way and the fields of the form with this button."""
        return next((way, fields) for name, way, fields in self.forms if name == label)


class Visitor:
    """One who looks at the pages of a server, and sends their forms."""

    def __init__(self, port: int, root: str) -> None:
        self.port, self.root = port, root

    def ask(self, method: str, path: str, body: str | None = None, **head: str) -> Reply:
        """One request with these fields in its head, and what came back."""
        connection = http.client.HTTPConnection("127.0.0.1", self.port, timeout=30)
        try:
            connection.request(method, path, body, {name.replace("_", "-"): value for name, value in head.items()})
            reply = connection.getresponse()
            return Reply(reply.status, reply.headers, reply.read().decode("utf-8", "replace"))
        finally:
            connection.close()

    def look(self, way: str = "") -> Page:
        """The page behind the secret path; where it leads elsewhere, that one."""
        path = self.root + way
        for _ in range(600):
            reply = self.ask("GET", path)
            if reply.status == 303:
                path = reply.head["Location"]
            elif 'http-equiv="refresh"' in reply.text:
                time.sleep(0.1)
            else:
                break
        assert reply.status == 200, (reply.status, reply.text)
        return Page(reply.text)

    def send(self, way: str, fields: dict[str, str], **head: str) -> Reply:
        """Sends a form as a browser does from a page of this server."""
        head = {"Origin": f"http://127.0.0.1:{self.port}", "Sec-Fetch-Site": "same-origin"} | head
        kind = {"Content-Type": "application/x-www-form-urlencoded"}
        return self.ask("POST", way, urlencode(fields), **kind, **head)

    def press(self, page: Page, label: str) -> Page:
        """The page that comes after a button of a page was pressed."""
        reply = self.send(*page.form(label))
        assert reply.status == 303, (reply.status, reply.text)
        return self.look(reply.head["Location"].removeprefix(self.root))


class ReviewerAtWork(Visitor):
    """One run of tools/reviewer over an office, by the token of a reviewer."""

    def __init__(self, office: Path, token: str) -> None:
        self.errors = tempfile.TemporaryFile()
        self.process = subprocess.Popen(
            [str(TOOLS / "reviewer"), str(office)], stdin=subprocess.DEVNULL, stdout=subprocess.PIPE,
            stderr=self.errors, env=os.environ | {"VET_TOKEN": token}, text=True,
        )
        self.address = self.process.stdout.readline().strip()
        parts = urlsplit(self.address)
        super().__init__(parts.port or 0, parts.path)

    def end(self) -> None:
        """Ends the run as a signal does."""
        self.process.terminate()
        self.process.wait(30)
        self.process.stdout.close()
        self.errors.close()
