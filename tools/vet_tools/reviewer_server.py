"""The server of the reviewer's pages: on 127.0.0.1 alone, under a path that only the reviewer knows.

A request is answered where its Host is this server, its path begins with the secret, and, for a command, its Origin is
this server too and its form was shown and not sent before. Nothing of a request is logged.
"""

from __future__ import annotations

import hmac
import re
import shutil
import socketserver
import sys
import tempfile
import threading
from collections.abc import Callable
from http.server import BaseHTTPRequestHandler, HTTPServer
from importlib.resources import files
from urllib.parse import parse_qs, urlsplit

from vet_tools import reviewer_pages as pages
from vet_tools.desk_cases import Case, Cases, CasesError, State
from vet_tools.desk_client import Told
from vet_tools.desk_copy import CopyError
from vet_tools.reviewer_apps import files_of, write_zip
from vet_tools.reviewer_desk import Command, Reviewing
from vet_tools.shown import visible

FORM_LIMIT = 16_384
CONNECTIONS = 32
ROWS = 200
NAME = re.compile(rb"[A-Za-z0-9._-]{1,64}")
POLICY = (
    "default-src 'none'; style-src 'self'; img-src data:; form-action 'self'; frame-ancestors 'none'; base-uri 'none'"
)
APP_POLICY = (
    "sandbox; default-src 'none'; style-src 'unsafe-inline'; img-src data:; font-src data:; form-action 'none';"
    " frame-ancestors 'none'; base-uri 'none'"
)
HEADERS = (
    ("X-Content-Type-Options", "nosniff"),
    ("X-Frame-Options", "DENY"),
    ("Referrer-Policy", "same-origin"),
    ("Cross-Origin-Opener-Policy", "same-origin"),
    ("Cross-Origin-Resource-Policy", "same-origin"),
    ("Cache-Control", "no-store"),
)


class Refused(Exception):
    """A request that is not answered as it asks: the status, a title and a sentence."""

    def __init__(self, status: int, title: str, text: str) -> None:
        super().__init__(title)
        self.status, self.title, self.text = status, title, text


class Server(socketserver.ThreadingMixIn, HTTPServer):
    """A server for one reviewer: a few connections at once, each in a thread."""

    daemon_threads = True

    def __init__(self, port: int, reviewing: Reviewing) -> None:
        self.reviewing = reviewing
        self._room = threading.BoundedSemaphore(CONNECTIONS)
        super().__init__(("127.0.0.1", port), Handler)

    def server_bind(self) -> None:
        """Binds the port, and asks no name server who this machine is."""
        socketserver.TCPServer.server_bind(self)
        self.server_name, self.server_port = self.server_address[:2]

    @property
    def hosts(self) -> set[str]:
        """What a request to this server has as its Host."""
        return {f"127.0.0.1:{self.server_port}", f"localhost:{self.server_port}"}

    def process_request(self, request: object, client_address: object) -> None:
        """Takes a connection where there is room, and else closes it."""
        if self._room.acquire(blocking=False):
            super().process_request(request, client_address)
        else:
            self.shutdown_request(request)

    def process_request_thread(self, request: object, client_address: object) -> None:
        """Serves a connection, and makes room for the next one."""
        try:
            super().process_request_thread(request, client_address)
        finally:
            self._room.release()

    def handle_error(self, request: object, client_address: object) -> None:
        """A connection that failed is nobody's matter."""


class Handler(BaseHTTPRequestHandler):
    """Answers one request."""

    server: Server
    timeout = 15
    server_version = "reviewer"
    sys_version = ""
    error_message_format = "This request is none that a browser sends.\n"
    error_content_type = "text/plain; charset=utf-8"

    def log_message(self, *_: object) -> None:
        """Nothing is logged: the path has the secret."""

    def do_GET(self) -> None:
        """Answers a request for a page."""
        self._answer(self._page)

    def do_POST(self) -> None:
        """Answers a form."""
        self._answer(self._form)

    def _answer(self, act: Callable[[str], None]) -> None:
        try:
            act(self._asked())
        except Refused as refused:
            page = pages.message_page(self._frame(), refused.title, refused.text)
            self._send(refused.status, page if refused.status != 404 else b"There is no such page.\n",
                       "text/html" if refused.status != 404 else "text/plain")
        except (CopyError, CasesError) as error:
            self._send(503, pages.message_page(self._frame(), "The cases cannot be shown", str(error)))
        except (ConnectionError, TimeoutError):
            self.close_connection = True
        except Exception as error:
            print(f"reviewer: a page failed ({type(error).__name__})", file=sys.stderr)
            self._send(500, pages.message_page(self._frame(), "This page failed", "It is a fault of tools/reviewer."))

    def _asked(self) -> str:
        """The path behind the secret. Raises Refused where the request is not the reviewer's."""
        if self.headers.get_all("Host", []) not in [[host] for host in self.server.hosts]:
            raise Refused(404, "", "")
        root, path = self.server.reviewing.root, self.path
        if not hmac.compare_digest(path[: len(root)].encode(), root.encode()):
            raise Refused(404, "", "")
        return path[len(root):]

    def _frame(self) -> pages.Frame:
        reviewing = self.server.reviewing
        name = reviewing.office.folder.resolve().name or "/"
        return pages.Frame(reviewing.root, name, reviewing.who, reviewing.today(), reviewing.office.appeal_days)

    def _send(
        self, status: int, body: bytes, kind: str = "text/html", more: tuple[tuple[str, str], ...] = (),
        policy: str = POLICY,
    ) -> None:
        self.send_response(status)
        self.send_header("Content-Type", f"{kind}; charset=utf-8")
        self.send_header("Content-Length", str(len(body)))
        for name, value in (("Content-Security-Policy", policy), *HEADERS, *more):
            self.send_header(name, value)
        self.end_headers()
        self.wfile.write(body)

    def _go(self, way: str) -> None:
        self._send(303, b"", more=(("Location", self.server.reviewing.root + way),))

    def _page(self, asked: str) -> None:
        """Answers a GET."""
        parts = urlsplit(asked)
        query = {name: values[0] for name, values in parse_qs(parts.query, max_num_fields=8).items()}
        match parts.path.split("/"):
            case [""]:
                self._first(query)
            case ["style.css"]:
                self._send(200, (files("vet_tools") / "reviewer.css").read_bytes(), "text/css")
            case ["case", number]:
                self._case(_number(number), query)
            case ["case", number, "report", place]:
                self._report(_number(number), _number(place))
            case ["case", number, "page"]:
                self._page_of(_number(number))
            case ["case", number, "app.zip"]:
                self._app(_number(number))
            case ["command", nonce]:
                self._command(nonce)
            case _:
                raise Refused(404, "", "")

    def _told(self, query: dict[str, str]) -> Told | None:
        command = self.server.reviewing.forms.sent(query.get("told", ""))
        return command.told if command else None

    def _first(self, query: dict[str, str]) -> None:
        words = query.get("words", "")[:64]
        page = min(_number(query.get("page", "0")), 1_000_000)
        with self.server.reviewing.store.cases() as cases:
            lists = _lists(cases, words, page)
        decide = pages.button(self._frame(), "decide", "Decide the first case", self._once({}))
        self._send(200, pages.first_page(self._frame(), lists, self._told(query), decide))

    def _found(self, number: int) -> Case:
        with self.server.reviewing.store.cases() as cases:
            case = cases.case(number) if cases else None
        if case is None:
            raise Refused(404, "", "")
        return case

    def _case(self, number: int, query: dict[str, str]) -> None:
        case = self._found(number)
        forms, looks = self._forms_of(case), self._looks_of(case)
        self._send(200, pages.case_page(self._frame(), case, self._told(query), forms, looks))

    def _once(self, fields: dict[str, str]) -> dict[str, str]:
        """The fields of a form that sends one command at most."""
        return fields | {"once": self.server.reviewing.forms.nonce()}

    def _looks_of(self, case: Case) -> str:
        """The page of the app, where it was made, or the form that makes it, where there is a tools/page."""
        apps, frame = self.server.reviewing.apps, self._frame()
        link = ""
        if apps.page_of(case.number) is not None:
            link = f'<p class="only-screen">See <a href="{frame.root}case/{case.number}/page">the app\'s page</a>.</p>'
        if not apps.can_make:
            return link
        fields = self._once({"case": str(case.number), "seen": case.seen})
        return link + pages.button(frame, "page", "Make the app's page", fields, plain=True)

    def _page_of(self, number: int) -> None:
        """The page that tools/page made: it stands for itself, and no script of it runs."""
        page = self.server.reviewing.apps.page_of(number)
        if page is None:
            raise Refused(404, "", "")
        self._send(200, page, policy=APP_POLICY)

    def _forms_of(self, case: Case) -> str:
        """What may be asked of the last entry of a case."""
        reviewing, frame = self.server.reviewing, self._frame()
        fields = {"case": str(case.number), "seen": case.seen}
        if case.state is State.APPEALED:
            mine = case.entries[-1].reviewer.decode("utf-8", "replace") == reviewing.who
            hint = "You made this decision, so the desk takes no ruling of yours: let another reviewer rule." if mine \
                else "Uphold leaves the decision as it is. Overturn marks it as overturned; it is not called clear."
            rulings = (("uphold", "Uphold the decision"), ("overturn", "Overturn the decision"))
            made = [
                pages.button(frame, "rule", label, self._once(fields | {"ruling": word}), plain=True)
                for word, label in rulings
            ]
            head = f'<h3 class="only-screen">Ruling</h3><p class="note only-screen">{hint}</p>'
            return f'{head}\n<div class="row">{"".join(made)}</div>'
        if case.state in (State.DECIDED, State.RULED):
            hint = {
                True: "It was decided under the lists that the office's folder has now; a review needs other ones.",
                False: "The office's folder has other lists now. The desk judges by those that it read at its start.",
                None: "A review needs other lists than those of the decisions.",
            }[reviewing.is_of_these_lists(case.entries[-1].edition)]
            made = pages.button(frame, "review", "Review", self._once(fields), plain=True)
            return f'<h3 class="only-screen">Review</h3><p class="note only-screen">{hint}</p>\n{made}'
        return ""

    def _making(self, case: Case) -> Callable[[], Told]:
        """What makes the page of a case's app. The files are read now, so that the database is not held for long."""
        reviewing = self.server.reviewing
        if not reviewing.apps.can_make:
            raise Refused(404, "", "")
        with reviewing.store.cases() as cases:
            files = list(files_of(case, cases, reviewing.lists())) if cases else []
        return lambda: reviewing.apps.make(case, files)

    def _report(self, number: int, place: int) -> None:
        case = self._found(number)
        if place >= len(case.entries):
            raise Refused(404, "", "")
        self._send(200, visible(case.entries[place].report, keep="\n").encode(), "text/plain")

    def _app(self, number: int) -> None:
        """The folder of an app, with the office's lists, as a ZIP file."""
        with tempfile.TemporaryFile() as file:
            with self.server.reviewing.store.cases() as cases:
                case = cases.case(number) if cases else None
                if case is None or cases is None:
                    raise Refused(404, "", "")
                write_zip(file, case, cases, self.server.reviewing.lists())
            length = file.tell()
            file.seek(0)
            self.send_response(200)
            name = f"case-{number}.zip"
            for header, value in (
                ("Content-Type", "application/zip"), ("Content-Length", str(length)),
                ("Content-Disposition", f'attachment; filename="{name}"'), *HEADERS,
            ):
                self.send_header(header, value)
            self.end_headers()
            shutil.copyfileobj(file, self.wfile)

    def _command(self, nonce: str) -> None:
        """Where a command is: under way, or done, and then the page to which it leads."""
        command = self.server.reviewing.forms.sent(nonce)
        if command is None:
            raise Refused(404, "", "")
        told = command.told if command.ended.is_set() else None
        if told is None:
            seconds = int(self.server.reviewing.forms.seconds(command))
            self._send(200, pages.waiting_page(self._frame(), command.what, seconds))
            return
        way = command.way
        if told.case is not None:
            with self.server.reviewing.store.cases() as cases:
                number = cases.number_of(*told.case) if cases else None
            way = f"case/{number}" if number is not None else way
        self._go(f"{way}?told={nonce}")

    def _fields(self) -> dict[str, str]:
        """The fields of a form. Raises Refused where it does not come from a page of this server."""
        origins = {f"http://{host}" for host in self.server.hosts}
        site = self.headers.get("Sec-Fetch-Site", "same-origin")
        if self.headers.get("Origin") not in origins or site != "same-origin":
            raise Refused(403, "Nothing was done", "This form does not come from a page of this desk.")
        length = self.headers.get("Content-Length", "")
        if not length.isdecimal() or int(length) > FORM_LIMIT or self.headers.get("Transfer-Encoding"):
            raise Refused(413, "Nothing was done", "This form is too long, or does not say how long it is.")
        text = self.rfile.read(int(length)).decode("utf-8", "replace")
        return {name: values[0] for name, values in parse_qs(text, max_num_fields=8).items()}

    def _form(self, asked: str) -> None:
        """Answers a POST: sends the command that the form is, unless the form sent one before."""
        fields = self._fields()
        forms, nonce = self.server.reviewing.forms, fields.get("once", "")
        if forms.sent(nonce) is None:
            if not forms.was_shown(nonce):
                raise Refused(403, "Nothing was done", "This page is too old. Look at the cases, and ask again.")
            command, ask = self._asked_for(asked, fields)
            if not forms.send(nonce, command, ask):
                raise Refused(429, "Nothing was done", "Some commands are under way. Wait for them, and ask again.")
        command = forms.sent(nonce)
        if command is not None:
            command.ended.wait(1.0)
        self._go(f"command/{nonce}")

    def _asked_for(self, asked: str, fields: dict[str, str]) -> tuple[Command, Callable[[], Told]]:
        """The command of a form. Raises Refused where it is none."""
        desk = self.server.reviewing.desk
        if asked == "decide":
            return Command("Deciding the first case", ""), desk.decide
        if asked not in ("review", "rule", "page"):
            raise Refused(404, "", "")
        case = self._found(_number(fields.get("case", "")))
        if case.seen != fields.get("seen"):
            raise Refused(409, "Nothing was done", "The case has changed since you looked. Look at it again, then ask.")
        if asked == "page":
            return Command(f"Making the page of case {case.number}", f"case/{case.number}"), self._making(case)
        if not NAME.fullmatch(case.developer) or not NAME.fullmatch(case.reference):
            raise Refused(409, "Nothing was done", "This case has a name that no desk gives: look to its database.")
        developer, reference = case.developer.decode(), case.reference.decode()
        way = f"case/{case.number}"
        if asked == "review":
            return Command(f"Reviewing {developer} / {reference}", way), lambda: desk.review(developer, reference)
        ruling = fields.get("ruling", "")
        if ruling not in ("uphold", "overturn"):
            raise Refused(422, "Nothing was done", "The ruling is neither uphold nor overturn.")
        return Command(f"Ruling on {developer} / {reference}", way), lambda: desk.rule(developer, reference, ruling)


def _number(text: str) -> int:
    """A number of a path or a field. Raises Refused where it is none, or none that a case has."""
    if not text.isascii() or not text.isdecimal() or len(text) > 18:
        raise Refused(404, "", "")
    return int(text)


def _lists(cases: Cases | None, words: str, page: int) -> pages.Lists:
    if cases is None:
        return pages.Lists([], 0, [], 0, [], words, page, False)
    is_search = bool(words or page)
    decided = cases.decided(words, 51, page * 50)
    return pages.Lists(
        [] if is_search else cases.queue(ROWS), cases.count(State.QUEUED),
        [] if is_search else cases.appeals(ROWS), cases.count(State.APPEALED),
        decided[:50], words, page, len(decided) > 50,
    )


