"""The reviewer's desk: the worked case through its pages, hostile texts, and who is let in."""

from __future__ import annotations

import io
import json
import os
import socket
import sqlite3
import subprocess
import tempfile
import threading
import time
import unittest
import zipfile
from contextlib import redirect_stderr, redirect_stdout
from http.server import BaseHTTPRequestHandler, HTTPServer
from pathlib import Path
from unittest.mock import patch

from tests.desk_at_work import TOKENS, TOOLS, TOP, DeskAtWork, free_port, submission
from tests.browser import Browser
from tests.reviewer_at_work import Page, ReviewerAtWork, Visitor
from tests.standin_desk import TABLES
from vet_tools.desk_client import Desk
from vet_tools.office import Office, OfficeError, read_office
from vet_tools.reviewer import main, office_of, parser
from vet_tools.reviewer_apps import AppPages
from vet_tools.reviewer_desk import Forms, Reviewing, Store
from vet_tools.reviewer_server import Server

FLOW = "device_id -> network at La/Main;->onCreate(Landroid/os/Bundle;)V @4"
APPEAL = "The number goes to our own server.\n<script>document.title = 'taken'</script>\u202e\x1b[31m & \"more\""


CHROMIUM: list[Browser] = []


def setUpModule() -> None:
    """One browser serves all tests."""
    CHROMIUM.append(Browser())
    unittest.addModuleCleanup(CHROMIUM[0].end)


class AtAnOffice(unittest.TestCase):
    """A test with a desk at work."""

    standin = False

    def setUp(self) -> None:
        self.desk = DeskAtWork(self.standin)
        self.addCleanup(self.desk.end)

    def reviewer(self, who: str) -> ReviewerAtWork:
        made = ReviewerAtWork(self.desk.office, TOKENS[who])
        self.addCleanup(made.end)
        return made

    def shown(self, reference: str = "r1") -> dict[str, object]:
        return json.loads(self.desk.done("ann", "GET", f"/cases/{reference}"))


class WorkedCase(AtAnOffice):
    """The worked case, from the queue to the ruling."""

    def test_a_case_goes_from_the_queue_to_its_ruling(self) -> None:
        self.desk.done("ann", "POST", "/cases", submission("device_id_posted", "r1"))
        rex, sue = self.reviewer("rex"), self.reviewer("sue")
        page = rex.look()
        self.assertIn("1 case waits for a decision", page.text)
        self.assertIn("r1", page.text)
        page = rex.press(page, "Decide the first case")
        self.assertIn("Decided: ann / r1 is flagged.", page.text)
        self.assertIn(FLOW, page.text)
        self.assertIn("by rex", page.text)
        self.assertEqual(self.shown()["outcome"], "flagged")
        self.desk.done("ann", "POST", "/cases/r1/appeal", json.dumps({"text": "It goes to our own server."}))
        self.assertIn("1 appeal waits for a ruling", sue.look().text)
        own = rex.look("case/1")
        self.assertIn("You made this decision", own.text)
        self.assertIn("Nothing was done: same reviewer (403).", rex.press(own, "Uphold the decision").text)
        self.assertEqual(self.shown()["ruling"], None)
        page = sue.look("case/1")
        self.assertIn("It goes to our own server.", page.text)
        page = sue.press(page, "Overturn the decision")
        self.assertIn("Ruled on ann / r1: overturn.", page.text)
        self.assertEqual(self.shown()["ruling"], "overturn")
        self.assertIn("No appeal waits for a ruling.", sue.look().text)
        page = sue.press(page, "Review")
        self.assertIn("Nothing was done: decided under these lists (409).", page.text)

    def test_the_pages_are_read_in_a_browser(self) -> None:
        self.desk.done("ann", "POST", "/cases", submission("provider", "r1"))
        self.desk.done("ann", "POST", "/cases", submission("click", "r2"))
        self.desk.done("rex", "POST", "/decisions", "")
        self.desk.done("ann", "POST", "/cases/r1/appeal", json.dumps({"text": APPEAL}))
        sue, browser = self.reviewer("sue"), CHROMIUM[0]
        browser.go(sue.address)
        self.assertIn("<title>Cases</title>", browser.document())
        for text in ("1 appeal waits for a ruling", "1 case waits for a decision", "r1", "r2", "undecided"):
            self.assertIn(text, browser.text())
        browser.go(f"{sue.address}case/1")
        document = browser.document()
        page = Page(document)
        for text in ("provider: La/Prov;", FLOW, "The number goes to our own server.", "\\u{202e}\\x1b[31m"):
            self.assertIn(text, page.text)
        self.assertIn("<title>ann / r1</title>", document)
        self.assertNotIn("script", [tag for tag, _ in page.elements])
        self.assertIn("Uphold the decision", [label for label, _, _ in page.forms])

    def test_a_case_goes_the_whole_way_by_keyboard_in_a_browser(self) -> None:
        self.desk.done("ann", "POST", "/cases", submission("device_id_posted", "r1"))
        rex, sue, browser = self.reviewer("rex"), self.reviewer("sue"), CHROMIUM[0]
        browser.go(rex.address)
        self.assertEqual(browser.tab_to("Decide the first case")[0], "To the content")
        browser.enter("Decided: ann / r1 is flagged.")
        self.desk.done("ann", "POST", "/cases/r1/appeal", json.dumps({"text": "It goes to our own server."}))
        browser.go(sue.address)
        browser.tab_to("r1")
        browser.enter("It goes to our own server.")
        browser.tab_to("manifest.toml (80 bytes)")
        self.assertNotIn("package =", browser.text())
        browser.press("Space")
        self.assertIn("package =", browser.text())
        browser.go(f"{sue.address}case/1")
        browser.tab_to("Overturn the decision")
        browser.enter("Ruled on ann / r1: overturn.")
        self.assertEqual(self.shown()["ruling"], "overturn")

    def test_in_print_stands_what_is_read_and_no_button(self) -> None:
        self.desk.done("ann", "POST", "/cases", submission("device_id_posted", "r1"))
        self.desk.done("rex", "POST", "/decisions", "")
        self.desk.done("ann", "POST", "/cases/r1/appeal", json.dumps({"text": "No."}))
        sue, browser = self.reviewer("sue"), CHROMIUM[0]
        browser.go(f"{sue.address}case/1")
        for selector, seen in (("h1", True), ("pre.prose", True), ("details:not([open]) pre", True), ("form", False),
                               ("button", False), (".skip", False), (".only-screen", False)):
            self.assertEqual(browser.shown_in_print(selector), seen, selector)

    def test_the_desk_is_not_disturbed_and_the_pages_are_of_now(self) -> None:
        sue = self.reviewer("sue")
        self.assertIn("No case waits for a decision.", sue.look().text)
        for number in range(12):
            self.desk.done("ann", "POST", "/cases", submission("declared", f"a{number}"))
            self.assertIn(f"a{number}", sue.look().text)
        self.desk.kill()
        page = sue.look()
        self.assertIn("12 cases wait for a decision", page.text)
        self.assertIn("No desk listens on port", sue.press(page, "Decide the first case").text)
        self.desk.begin()
        self.assertIn("Decided: ann / a0 is clear.", sue.press(sue.look(), "Decide the first case").text)

    def test_a_form_sends_one_command_however_often_it_is_sent(self) -> None:
        for reference in ("r1", "r2"):
            self.desk.done("ann", "POST", "/cases", submission("declared", reference))
        rex = self.reviewer("rex")
        way, fields = rex.look().form("Decide the first case")
        replies = [rex.send(way, fields) for _ in range(3)]
        self.assertEqual({reply.head["Location"] for reply in replies}, {f"{rex.root}command/{fields['once']}"})
        rex.look(f"command/{fields['once']}")
        self.assertEqual([self.shown(reference)["state"] for reference in ("r1", "r2")], ["decided", "queued"])

    def test_a_case_that_changed_since_it_was_looked_at_is_not_ruled_on(self) -> None:
        self.desk.done("ann", "POST", "/cases", submission("device_id_posted", "r1"))
        self.desk.done("rex", "POST", "/decisions", "")
        self.desk.done("ann", "POST", "/cases/r1/appeal", json.dumps({"text": "No."}))
        sue = self.reviewer("sue")
        page = sue.look("case/1")
        ruling = {"developer": "ann", "reference": "r1", "ruling": "uphold"}
        self.desk.done("sue", "POST", "/rulings", json.dumps(ruling))
        reply = sue.send(*page.form("Overturn the decision"))
        self.assertEqual(reply.status, 409)
        self.assertIn("The case has changed since you looked.", reply.text)
        self.assertEqual(self.shown()["ruling"], "uphold")

    def test_the_app_comes_as_the_folder_that_check_reads(self) -> None:
        self.desk.done("ann", "POST", "/cases", submission("click", "r1"))
        sue = self.reviewer("sue")
        with socket.create_connection(("127.0.0.1", sue.port)) as asked:
            asked.sendall(f"GET {sue.root}case/1/app.zip HTTP/1.0\r\nHost: 127.0.0.1:{sue.port}\r\n\r\n".encode())
            data = asked.makefile("rb").read().split(b"\r\n\r\n", 1)[1]
        with zipfile.ZipFile(io.BytesIO(data)) as archive:
            found = {name: archive.read(name) for name in archive.namelist()}
        example = TOP / "examples/click"
        names = ("manifest.toml", "layouts.toml", "declaration.toml", "classes.dex")
        due = {f"case-1/{name}": (example / name).read_bytes() for name in names}
        due["case-1/lists.toml"] = (TOP / "examples/office/lists.toml").read_bytes()
        self.assertEqual(found, due)


class Days(AtAnOffice):
    """Days are shown as dates. Only the stand-in can be told which day it is."""

    standin = True

    def test_days_are_dates(self) -> None:
        self.desk.set_day(100)
        self.desk.done("ann", "POST", "/cases", submission("device_id_posted", "r1"))
        self.desk.done("rex", "POST", "/decisions", "")
        sue = self.reviewer("sue")
        text = sue.look("case/1").text
        self.assertIn("Decided 1970-04-11 by rex", text)
        self.assertIn("none; the last day is 1970-05-11", text)
        self.desk.set_day(130)
        self.desk.done("ann", "POST", "/cases/r1/appeal", json.dumps({"text": "No."}))
        self.assertIn("Appeal of 1970-05-11", sue.look("case/1").text)

    def test_a_review_under_other_lists_adds_a_decision(self) -> None:
        self.desk.done("ann", "POST", "/cases", submission("device_id_posted", "r1"))
        self.desk.done("rex", "POST", "/decisions", "")
        sue = self.reviewer("sue")
        self.assertIn("decided under the lists that the office's folder has now", sue.look("case/1").text)
        self.desk.kill()
        with (self.desk.office / "lists.toml").open("a") as lists:
            lists.write("# other lists\n")
        self.desk.begin()
        page = sue.look("case/1")
        self.assertIn("The office's folder has other lists now.", page.text)
        page = sue.press(page, "Review")
        self.assertIn("Decided: ann / r1 is flagged.", page.text)
        self.assertIn("Decision 2: flagged", page.text)
        self.assertIn("Decision 1: flagged", page.text)


class Hostile(unittest.TestCase):
    """Whatever stands in the database is text on the pages."""

    @classmethod
    def setUpClass(cls) -> None:
        folder = tempfile.TemporaryDirectory()
        cls.addClassCleanup(folder.cleanup)
        office = Path(folder.name) / "<b>office"
        office.mkdir()
        form = (TOP / "examples/office/office.toml").read_text().replace("8650", str(free_port()))
        (office / "office.toml").write_text(form)
        base = sqlite3.connect(office / "desk.sqlite", isolation_level=None)
        base.executescript(TABLES)
        name, evil = "r\x1b[31m\"'><script>alert(1)</script>", b"<img src=x onerror=document.title='taken'>\xff\x00"
        base.execute("INSERT INTO version VALUES (1, 2)")
        base.execute("INSERT INTO cases VALUES (1, ?, ?, ?, ?, ?)", (name, name, evil, evil, evil))
        base.execute("INSERT INTO dex VALUES (1, 0, ?)", (evil,))
        report = b"flagged 1\n<script>document.title='taken'</script> -> \x1b]0;x\x07\n"
        base.execute("INSERT INTO entries VALUES (1, 0, 'flagged', ?, ?, ?, ?)", (report, evil, name, 1 << 40))
        base.execute("INSERT INTO entry_appeals VALUES (1, 0, 4294967295, ?)", (b"</pre><script>x</script>" + evil,))
        base.close()
        cls.sue = ReviewerAtWork(office, TOKENS["sue"])
        cls.addClassCleanup(cls.sue.end)

    def assert_tame(self, text: str) -> None:
        elements = [tag for tag, _ in Page(text).elements]
        self.assertFalse({"script", "img", "b"} & set(elements), elements)
        self.assertNotIn("\x1b", text)
        self.assertNotIn("\x07", text)
        self.assertFalse([values for _, values in Page(text).elements if any(name.startswith("on") for name in values)])

    def test_names_reports_and_appeals_are_escaped(self) -> None:
        for way in ("", "case/1", "?words=%3Cscript%3E%1b"):
            self.assert_tame(self.sue.ask("GET", self.sue.root + way).text)
        text = self.sue.look("case/1").text
        self.assertIn("r\\x1b[31m\"'><script>alert(1)</script>", text)
        self.assertIn("<img src=x onerror=document.title='taken'>\\xff\\x00", text)
        self.assertIn("day 1099511627776", text)

    def test_a_browser_finds_no_script_in_them(self) -> None:
        browser = CHROMIUM[0]
        for way in ("case/1", "", "case/1/report/0"):
            browser.go(self.sue.address + way)
            self.assert_tame(browser.document())
            self.assertNotIn("<title>taken", browser.document())

    def test_a_name_that_no_desk_gives_is_not_handed_on(self) -> None:
        reply = self.sue.send(*self.sue.look("case/1").form("Uphold the decision"))
        self.assertEqual(reply.status, 409)
        self.assertIn("This case has a name that no desk gives", reply.text)

    def test_a_report_as_plain_text_is_no_page(self) -> None:
        reply = self.sue.ask("GET", f"{self.sue.root}case/1/report/0")
        self.assertEqual(reply.head["Content-Type"], "text/plain; charset=utf-8")
        self.assertEqual(reply.head["X-Content-Type-Options"], "nosniff")


class WhoIsLetIn(unittest.TestCase):
    """Only who has the address is answered, and only a page of the desk itself asks for anything."""

    @classmethod
    def setUpClass(cls) -> None:
        cls.desk = DeskAtWork(standin=True)
        cls.addClassCleanup(cls.desk.end)
        cls.desk.done("ann", "POST", "/cases", submission("declared", "r1"))
        cls.rex = ReviewerAtWork(cls.desk.office, TOKENS["rex"])
        cls.addClassCleanup(cls.rex.end)

    def states(self) -> list[str]:
        return [case["state"] for case in json.loads(self.desk.done("ann", "GET", "/cases"))["cases"]]

    def test_another_path_or_host_finds_nothing(self) -> None:
        root = self.rex.root
        for path in ("/", "/style.css", "/case/1", root[:-2] + "/", root.swapcase(), root + "case/99",
                     root + "case/1/report/0", root + "case/x", root + "case/" + "9" * 5000, root + "../x"):
            self.assertEqual(self.rex.ask("GET", path).status, 404, path)
        for host in ("evil.example", f"evil.example:{self.rex.port}", "127.0.0.1", "127.0.0.1:1"):
            reply = self.rex.ask("GET", root, Host=host)
            self.assertEqual((reply.status, reply.text), (404, "There is no such page.\n"))
        self.assertEqual(self.rex.ask("GET", root).status, 200)

    def test_a_form_of_another_site_does_nothing(self) -> None:
        self.desk.done("ann", "POST", "/cases", submission("declared", "r2"))
        states = self.states()
        way, fields = self.rex.look().form("Decide the first case")
        for head in ({"Origin": "http://evil.example"}, {"Origin": "null"}, {"Sec-Fetch-Site": "cross-site"},
                     {"Sec-Fetch-Site": "same-site"}, {"Origin": f"https://127.0.0.1:{self.rex.port}"}):
            self.assertEqual(self.rex.send(way, fields, **head).status, 403)
        self.assertEqual(self.rex.ask("POST", way, f"once={fields['once']}").status, 403)
        self.assertEqual(self.rex.send(way, {"once": "x"}).status, 403)
        self.assertEqual(self.rex.send(way, {}).status, 403)
        self.assertEqual(self.states(), states)

    def test_a_page_lets_no_script_run_and_no_other_page_in(self) -> None:
        head = self.rex.ask("GET", self.rex.root).head
        rules = {rule.split()[0]: rule.split()[1:] for rule in head["Content-Security-Policy"].split("; ")}
        self.assertEqual(rules["default-src"], ["'none'"])
        self.assertEqual(rules["form-action"], ["'self'"])
        self.assertEqual(rules["frame-ancestors"], ["'none'"])
        self.assertNotIn("script-src", rules)
        self.assertEqual(head["Cache-Control"], "no-store")
        self.assertEqual(head["Referrer-Policy"], "same-origin")

    def test_it_listens_on_this_machine_alone(self) -> None:
        listening = [line.split()[1] for line in Path("/proc/net/tcp").read_text().splitlines()[1:] if " 0A " in line]
        here = [place for place in listening if place.endswith(f":{self.rex.port:04X}")]
        self.assertEqual(here, [f"0100007F:{self.rex.port:04X}"])

    def test_the_token_stands_in_no_page_and_no_log(self) -> None:
        texts = [self.rex.ask("GET", self.rex.root + way).text for way in ("", "case/1", "style.css")]
        self.desk.done("ann", "POST", "/cases", submission("declared", "r3"))
        self.rex.press(self.rex.look(), "Decide the first case")
        self.rex.errors.seek(0)
        texts += [self.rex.address, self.rex.errors.read().decode()]
        words = Path(f"/proc/{self.rex.process.pid}/cmdline").read_text()
        for text in (*texts, words):
            self.assertNotIn(TOKENS["rex"], text)
        self.assertEqual(texts[-1], "")

    def test_nothing_is_left_when_a_signal_ends_it(self) -> None:
        with tempfile.TemporaryDirectory() as folder:
            with patch.dict(os.environ, {"TMPDIR": folder}):
                other = ReviewerAtWork(self.desk.office, TOKENS["rex"])
            self.assertEqual(len(list(Path(folder).iterdir())), 1)
            other.look()
            other.end()
            self.assertEqual(other.process.returncode, 0)
            self.assertEqual(list(Path(folder).iterdir()), [])

    def test_each_start_has_another_address(self) -> None:
        other = ReviewerAtWork(self.desk.office, TOKENS["rex"])
        self.addCleanup(other.end)
        self.assertNotEqual(other.root, self.rex.root)
        self.assertGreaterEqual(len(self.rex.root), 40)

    def test_a_bad_request_is_answered_and_the_next_one_served(self) -> None:
        for sent in (b"\r\n\r\n", b"GET\r\n\r\n", b"\x16\x03\x01\x00\xff\r\n\r\n", b"PUT / HTTP/1.1\r\n\r\n", b""):
            with socket.create_connection(("127.0.0.1", self.rex.port), timeout=5) as asked:
                asked.sendall(sent)
                asked.shutdown(socket.SHUT_WR)
                self.assertNotIn(b"Traceback", asked.makefile("rb").read())
        self.assertEqual(self.rex.ask("GET", self.rex.root).status, 200)

    def test_keyboard_and_reader_find_their_way(self) -> None:
        for way in ("", "case/1"):
            page = self.rex.look(way)
            tags = [tag for tag, _ in page.elements]
            self.assertEqual(tags.count("h1"), 1)
            self.assertIn(("a", {"class": "skip", "href": "#main"}), page.elements)
            self.assertFalse([values for _, values in page.elements if "tabindex" in values or "onclick" in values])
            named = {values.get("for") for tag, values in page.elements if tag == "label"}
            inputs = [values for tag, values in page.elements if tag == "input"]
            seen = {values.get("id") for values in inputs if values.get("type") != "hidden"}
            self.assertLessEqual(seen, named)


class AppPage(AtAnOffice):
    """The page that tools/page makes of an app; a small program stands in for tools/page."""

    standin = True

    def test_the_page_of_an_app_is_made_and_no_script_of_it_runs(self) -> None:
        folder = tempfile.TemporaryDirectory()
        self.addCleanup(folder.cleanup)
        program, seen = Path(folder.name) / "page", Path(folder.name) / "seen"
        program.write_text(
            f"#!/bin/sh\nls \"$1\" > {seen}\necho \"<p>page</p><script>document.title = 'taken'</script>\" > \"$3\"\n"
            "exit 2\n"
        )
        program.chmod(0o755)
        self.desk.done("ann", "POST", "/cases", submission("declared", "r1"))
        rex = self.serve(program, Path(folder.name))
        self.assertEqual(rex.ask("GET", f"{rex.root}case/1/page").status, 404)
        page = rex.press(rex.look("case/1"), "Make the app's page")
        self.assertIn("The app's page is made: see under App.", page.text)
        due = ["classes.dex", "declaration.toml", "layouts.toml", "lists.toml", "manifest.toml"]
        self.assertEqual(seen.read_text().split(), due)
        self.assertIn(("a", {"href": f"{rex.root}case/1/page"}), page.elements)
        reply = rex.ask("GET", f"{rex.root}case/1/page")
        self.assertIn("<p>page</p>", reply.text)
        policy = reply.head["Content-Security-Policy"].split("; ")
        self.assertEqual(policy[:2], ["sandbox", "default-src 'none'"])
        self.assertFalse([rule for rule in policy if rule.startswith("script-src")])
        program.write_text("#!/bin/sh\nprintf 'page: no \\033[31mlists\\n' >&2\nexit 1\n")
        page = rex.press(page, "Make the app's page")
        self.assertIn("tools/page made no page (status 1). It says: page: no \\x1b[31mlists", page.text)

    def serve(self, program: Path, folder: Path) -> Visitor:
        """The pages of a server in this process, with this program as its tools/page."""
        store = Store(self.desk.office / "desk.sqlite", folder)
        desk = Desk(self.desk.port, TOKENS["rex"])
        apps = AppPages(program, folder)
        reviewing = Reviewing(read_office(self.desk.office), desk, "rex", store, Forms(), apps, "secret")
        server = Server(0, reviewing)
        threading.Thread(target=server.serve_forever, args=(0.05,), daemon=True).start()
        self.addCleanup(server.server_close)
        self.addCleanup(server.shutdown)
        return Visitor(server.server_port, reviewing.root)


class Waiting(unittest.TestCase):
    """A desk that takes long, and one that gives no reply."""

    def setUp(self) -> None:
        folder = tempfile.TemporaryDirectory()
        self.addCleanup(folder.cleanup)
        self.office = Path(folder.name)
        go = self.go = threading.Event()

        class Slow(BaseHTTPRequestHandler):
            def do_GET(self) -> None:
                self.send_error(200)

            def do_POST(self) -> None:
                go.wait(20)
                if self.path == "/decisions":
                    self.close_connection = True

            def log_message(self, *_: object) -> None:
                pass

        server = HTTPServer(("127.0.0.1", 0), Slow)
        threading.Thread(target=server.serve_forever, daemon=True).start()
        self.addCleanup(server.server_close)
        self.addCleanup(server.shutdown)
        self.addCleanup(go.set)
        form = (TOP / "examples/office/office.toml").read_text().replace("8650", str(server.server_port))
        (self.office / "office.toml").write_text(form)

    def test_a_command_that_takes_long_is_waited_for_and_a_lost_reply_is_told(self) -> None:
        rex = ReviewerAtWork(self.office, TOKENS["rex"])
        self.addCleanup(rex.end)
        page = rex.look()
        self.assertFalse([label for label, _, _ in page.forms if label == "Decide the first case"])
        base = sqlite3.connect(self.office / "desk.sqlite", isolation_level=None)
        base.executescript(TABLES)
        base.execute("INSERT INTO version VALUES (1, 2)")
        base.execute("INSERT INTO cases VALUES (1, 'ann', 'r1', x'', x'', x'')")
        base.close()
        reply = rex.send(*rex.look().form("Decide the first case"))
        waiting = rex.ask("GET", reply.head["Location"])
        self.assertIn('<meta http-equiv="refresh" content="2">', waiting.text)
        self.assertIn("The desk has been at it for", waiting.text)
        self.go.set()
        page = rex.look(reply.head["Location"].removeprefix(rex.root))
        self.assertIn("It may have done what was asked all the same", page.text)


class Beginning(AtAnOffice):
    """What it says where it cannot begin."""

    standin = True

    def run_it(self, *words: str, token: str | None = None) -> tuple[int, str, str]:
        printed, said = io.StringIO(), io.StringIO()
        env = {} if token is None else {"VET_TOKEN": token}
        with (redirect_stdout(printed), redirect_stderr(said), patch.dict(os.environ, env),
              patch("sys.stdin.isatty", return_value=False, create=True)):
            status = main(list(words))
        return status, printed.getvalue(), said.getvalue()

    def test_it_says_in_a_sentence_why_it_cannot_begin(self) -> None:
        office = str(self.desk.office)
        for words, token, due in (
            ((office,), None, "A token has 8 to 128 visible ASCII characters"),
            ((office,), "short", "A token has 8 to 128 visible ASCII characters"),
            ((office,), TOKENS["ann"], "This token is a developer's"),
            ((office,), "nobody-has-this-one", "The desk knows no such token"),
            ((office + "/none",), TOKENS["rex"], "is not there: name the folder of the office"),
            ((office + "/office.toml",), TOKENS["rex"], "is no folder"),
            ((office, "--listen", "70000"), TOKENS["rex"], "A port is 1 to 65535"),
            ((office, "--listen", str(self.desk.port)), TOKENS["rex"], "cannot be had"),
            ((office, "--token-file", office), None, "could not be read"),
        ):
            status, printed, said = self.run_it(*words, token=token)
            self.assertEqual((status, printed), (1, ""), due)
            self.assertIn(due, said)
            self.assertEqual(said.count("\n"), 1)

    def test_a_journal_is_not_read(self) -> None:
        (self.desk.office / "desk.journal").write_bytes(b"")
        status, printed, said = self.run_it(str(self.desk.office), token=TOKENS["rex"])
        self.assertEqual((status, printed), (1, ""))
        self.assertIn("in desk.journal, and this page reads desk.sqlite alone", said)

    def test_with_a_port_the_office_file_need_not_be_there(self) -> None:
        with tempfile.TemporaryDirectory() as folder:
            words = parser().parse_args([folder, "--port", "8650"])
            self.assertEqual(office_of(words), Office(Path(folder), 8650, None, (), ()))
            with self.assertRaises(OfficeError):
                office_of(parser().parse_args([folder]))

    def test_help_has_an_example(self) -> None:
        done = subprocess.run([str(TOOLS / "reviewer"), "--help"], capture_output=True, text=True, timeout=20)
        self.assertEqual(done.returncode, 0)
        self.assertIn("example:\n  tools/reviewer office", done.stdout)

    def test_a_damaged_database_is_said_to_be_one(self) -> None:
        self.desk.kill()
        for name in ("desk.sqlite-wal", "desk.sqlite"):
            (self.desk.office / name).unlink(missing_ok=True)
        (self.desk.office / "desk.sqlite").write_bytes(b"no database" * 1000)
        time.sleep(0.1)
        rex = self.reviewer("rex")
        reply = rex.ask("GET", rex.root)
        self.assertEqual(reply.status, 503)
        self.assertIn("desk.sqlite is no database of a desk", reply.text)

    def test_a_database_without_tables_has_no_case_and_one_of_another_version_is_not_read(self) -> None:
        self.desk.kill()
        for name in ("desk.sqlite-wal", "desk.sqlite"):
            (self.desk.office / name).unlink(missing_ok=True)
        base = sqlite3.connect(self.desk.office / "desk.sqlite", isolation_level=None)
        base.execute("PRAGMA user_version = 1")
        rex = self.reviewer("rex")
        self.assertIn("No case waits for a decision.", rex.look().text)
        base.executescript(TABLES)
        base.execute("INSERT INTO version VALUES (1, 1)")
        base.close()
        self.assertIn("desk.sqlite is of another version", rex.ask("GET", rex.root).text)


if __name__ == "__main__":
    unittest.main()
