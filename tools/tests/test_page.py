"""The page of an app: its text as a browser shows it, none of the app's as markup, no request, nothing half written."""
from __future__ import annotations

import base64
import hashlib
import http.server
import re
import subprocess
import threading
import unittest
from dataclasses import replace
from html.parser import HTMLParser
from pathlib import Path

from tests.support import EXAMPLES, ROOT, ToolCase, certificate, expected
from vet_tools.explanation import Explanation, explain
from vet_tools.page import Subject, html
from vet_tools.report import Place, parse
from vet_tools.way import Step

TAGS = set("html head meta title style body a header h1 h2 h3 h4 span div strong p nav ul li main section article "
           "table caption thead tbody tr th td dl dt dd pre mark details summary progress small ol br code".split())
VOID = {"meta", "br"}
ATTRIBUTES = set("lang charset name content http-equiv class href id aria-label aria-labelledby role tabindex scope "
                 "data-head open max value".split())


class Page(HTMLParser):
    """A strict reader: tags close as they open, and tags, attributes and links are those that the page itself has."""

    def __init__(self, text: str) -> None:
        super().__init__(convert_charrefs=True)
        self.open: list[str] = []
        self.text: list[str] = []
        self.names: set[str] = set()
        self.links: list[str] = []
        self.policy = ""
        self.feed(text)
        self.close()
        assert not self.open, self.open

    def handle_starttag(self, tag: str, attributes: list[tuple[str, str | None]]) -> None:
        assert tag in TAGS, tag
        for name, value in attributes:
            assert name in ATTRIBUTES, name
            if name == "href":
                assert value and value.startswith("#"), value
                self.links.append(value[1:])
            if name == "id":
                assert value and value not in self.names, value
                self.names.add(value)
        if ("http-equiv", "Content-Security-Policy") in attributes:
            self.policy = dict(attributes)["content"] or ""
        if tag not in VOID:
            self.open.append(tag)

    def handle_endtag(self, tag: str) -> None:
        assert self.open and self.open[-1] == tag, (tag, self.open)
        self.open.pop()

    def handle_data(self, data: str) -> None:
        if self.open and self.open[-1] not in ("style", "title"):
            self.text.append(data)


def page_of(folder: Path, text: str) -> str:
    """The page of a report over a folder, without coverage."""
    return html(Subject(explain(parse(text), folder), None, "no certificate.", "a", "00"))


class Markup(ToolCase):
    def test_each_example_has_a_page_that_is_well_formed_and_has_its_lines(self) -> None:
        for name, (_, text) in expected().items():
            page = Page(page_of(EXAMPLES / name, text))
            shown = "".join(page.text)
            for line in text.splitlines():
                self.assertGreaterEqual(shown.count(line), 2 if text.count("\n") > 1 else 1, f"{name}: {line}")
            self.assertLessEqual(set(page.links), page.names)

    def test_the_policy_allows_this_style_and_nothing_else(self) -> None:
        text = page_of(EXAMPLES / "declared", "clear\n")
        style = text.split("<style>")[1].split("</style>")[0]
        due = base64.b64encode(hashlib.sha256(style.encode()).digest()).decode()
        self.assertEqual(Page(text).policy, f"default-src 'none'; style-src 'sha256-{due}'; base-uri 'none'; "
                                            "form-action 'none'")
        self.assertNotIn("url(", style)
        self.assertNotIn("@import", style)

    def test_names_of_an_attacker_are_text(self) -> None:
        app = self.hostile()
        (app / "manifest.toml").write_text('package = "</title><script>alert(1)</script>"\ndex_files = 1\n')
        done = self.run_tool("page", str(app), "-o", str(self.folder / "app.html"))
        self.assertEqual(done.returncode, 2, done.stderr)
        text = (self.folder / "app.html").read_text()
        page = Page(text)
        shown = "".join(page.text)
        self.assertIn('L"><img/s/>;', shown)
        self.assertIn("no summary: L<script>xx;->onLocationChanged(Landroid/location/Location;)V @4", shown)
        self.assertIn("Report on </title><script>alert(1)</script>", shown)
        self.assertNotIn("<script", text)
        self.assertNotIn("<img", text)

    def test_a_finding_has_its_code_marked_among_the_code_around_it(self) -> None:
        text = page_of(EXAMPLES / "ordinary", expected()["ordinary"][1])
        marked = re.findall(r"<mark>(\w+)  (\S+)", text)
        self.assertEqual(marked, [("0018", "invoke-virtual/range")])
        self.assertIn("0017  const/4 v5, 0", text)
        self.assertIn("001b  return-void", text)
        self.assertIn("What goes to sms: argument 3 (v3).", text)

    def test_rows_to_add_stand_on_the_page(self) -> None:
        shown = "".join(Page(page_of(EXAMPLES / "unlisted_call", expected()["unlisted_call"][1])).text)
        self.assertIn('[[method]]\nclass = "Lvendor/Odd;"\nname = "go"\nproto = "()V"\nstatic = true\n', shown)

    def test_a_refusal_says_what_to_mend(self) -> None:
        subject = Subject(Explanation(parse("refused layouts.toml: absent\n")), None, "", "a", "")
        shown = "".join(Page(html(subject)).text)
        self.assertIn("Hand it in; an empty layouts.toml or declaration.toml will do.", shown)
        self.assertNotIn("What was reached", shown)

    def test_a_way_is_drawn_where_one_is_known(self) -> None:
        found = explain(parse(expected()["device_id_posted"][1]), EXAMPLES / "device_id_posted")
        method = "La/Main;->onCreate(Landroid/os/Bundle;)V"
        found.findings = [replace(found.findings[0], way=(Step(Place(method, 0), "taken <here>"),))]
        text = html(Subject(found, None, "", "a", ""))
        self.assertIn("taken <here>", "".join(Page(text).text))
        self.assertIn('<ol class="way"><li>', text)


class Written(ToolCase):
    def test_a_certificate_is_made_and_what_it_reached_is_shown(self) -> None:
        self.answer("device_id_posted", *expected()["device_id_posted"], made=certificate("device_id_posted"))
        path = self.folder / "app.html"
        done = self.spawn("page", str(EXAMPLES / "device_id_posted"), "-o", str(path))
        self.assertEqual((done.returncode, done.stdout), (1, ""))
        self.assertEqual(done.stderr, f"flagged 1; the page is in '{path}'\n")
        shown = "".join(Page(path.read_text()).text)
        self.assertIn("Methods with code that were reached: 1 of 1 (100.0 %), in 1 of 1 class with code.", shown)
        self.assertIn("Lvendor/Device;->id()Ljava/lang/String;", shown)

    def test_a_certificate_that_is_given_is_used(self) -> None:
        path = self.folder / "app.html"
        report = self.folder / "report"
        report.write_text("clear\n")
        words = (str(EXAMPLES / "other_box"), "--report", str(report), "-o", str(path))
        self.assertEqual(self.run_tool("page", *words, "--certificate", str(certificate("other_box"))).returncode, 0)
        self.assertIn("<strong>5 of 5</strong>", path.read_text())
        self.assertEqual(self.run_tool("page", *words, "--certificate", str(certificate("declared"))).returncode, 0)
        self.assertIn("Not known: The certificate is about other files", path.read_text())
        self.assertEqual(self.run_tool("page", *words).returncode, 0)
        self.assertIn("Not known: no certificate was given with the report", path.read_text())
        done = self.run_tool("page", str(EXAMPLES / "other_box"), "--report", str(report), "-o", str(report))
        self.assertEqual((done.returncode, report.read_text()), (70, "clear\n"))
        self.assertIn("is a file that is read; name another file after -o.", done.stderr)

    def test_a_certificate_that_cannot_be_read_is_not_called_refused(self) -> None:
        self.answer("declared", 0, "clear\n")
        path = self.folder / "app.html"
        done = self.run_tool("page", str(EXAMPLES / "declared"), "-o", str(path), "--certificate", "no.cert")
        self.assertEqual((done.returncode, path.exists()), (70, False))
        self.assertEqual(done.stderr, "tools/page: The certificate 'no.cert' could not be read (No such file or "
                         "directory); ./vet certify makes one.\n")

    def test_where_there_is_no_report_the_old_page_stays(self) -> None:
        path = self.folder / "app.html"
        path.write_text("old")
        done = self.run_tool("page", str(EXAMPLES / "declared"), "-o", str(path))
        self.assertEqual((done.returncode, path.read_text()), (4, "old"))

    def test_a_place_that_cannot_be_written_and_a_file_of_the_app_are_refused(self) -> None:
        app = self.copied("declared", "kept")
        self.answer("kept", 0, "clear\n")
        for target, due in ((app / "manifest.toml", "is a file of the app"), (app, "is a folder"),
                            (app / "classes2.dex", "is a file of the app"),
                            (self.folder / "no" / "app.html", "No such file or directory")):
            before = sorted(app.iterdir())
            done = self.run_tool("page", str(app), "-o", str(target))
            self.assertEqual((done.returncode, done.stderr.count("\n")), (70, 1))
            self.assertIn(due, done.stderr)
            self.assertEqual(sorted(app.iterdir()), before)
        self.assertEqual((app / "manifest.toml").read_bytes(), (EXAMPLES / "declared" / "manifest.toml").read_bytes())


class Seen(http.server.BaseHTTPRequestHandler):
    """Serves the page, and remembers what else was asked for."""
    page = b""
    asked: list[str] = []

    def do_GET(self) -> None:
        Seen.asked.append(self.path)
        self.send_response(200 if self.path == "/app.html" else 404)
        self.send_header("Content-Type", "text/html; charset=utf-8")
        self.end_headers()
        self.wfile.write(Seen.page if self.path == "/app.html" else b"")

    def log_message(self, format: str, *args: object) -> None:
        """Says nothing."""


class InABrowser(ToolCase):
    def test_the_browser_shows_the_lines_runs_nothing_and_asks_for_nothing_else(self) -> None:
        app = self.hostile()
        Seen.page = page_of(app, (self.folder / "answers" / "hostile").read_text().split("\n", 1)[1]).encode()
        Seen.asked = []
        with http.server.ThreadingHTTPServer(("127.0.0.1", 0), Seen) as server:
            threading.Thread(target=server.serve_forever, daemon=True).start()
            done = subprocess.run(
                ["chromium", "--headless", "--no-sandbox", "--disable-gpu", f"--user-data-dir={self.folder / 'chrome'}",
                 "--dump-dom", f"http://127.0.0.1:{server.server_address[1]}/app.html"],
                capture_output=True, text=True, timeout=240, check=True)
            server.shutdown()
        page = Page(done.stdout)
        shown = "".join(page.text)
        self.assertIn("no summary: L<script>xx;->onLocationChanged(Landroid/location/Location;)V @4", shown)
        self.assertIn('void "><img.s.>.post(java.lang.Object): 1 call', shown)
        self.assertEqual([path for path in Seen.asked if path != "/favicon.ico"], ["/app.html"])


class Lines(ToolCase):
    def test_the_source_line_stands_by_the_method(self) -> None:
        app = self.copied("unlisted_call", "lined")
        (app / "classes.dex").write_bytes((ROOT / "crates" / "dex_list" / "data" / "empty.dex").read_bytes())
        shown = "".join(Page(page_of(app, "undecided 1\nno summary: Le/Marked;->debugged(I)V @1\n")).text)
        self.assertIn("In e.Marked.debugged(int), Marked.java:8.", shown)


if __name__ == "__main__":
    unittest.main()
