"""What deploy/ has: the nginx site before a desk at work, the units, and the backup."""

from __future__ import annotations

import contextlib
import json
import os
import re
import shutil
import socket
import sqlite3
import ssl
import subprocess
import tempfile
import threading
import time
import unittest
import warnings
from pathlib import Path

from tests.desk_at_work import TOKENS, TOP, DeskAtWork, free_port, submission
from tests.nginx_at_work import NginxAtWork
from tests.office_day import go_through

DEPLOY = TOP / "deploy"
NO_RATE = ("rate=5r/s", "rate=1000r/s")


class Nginx(unittest.TestCase):
    """A test with nginx before a port."""

    def nginx(self, port: int, *changes: tuple[str, str]) -> NginxAtWork:
        made = NginxAtWork(port, *changes)
        self.addCleanup(made.end)
        made.begin()
        return made


class BeforeADesk(Nginx):
    """nginx and a desk at work."""

    def test_nginx_finds_no_fault_in_the_site(self) -> None:
        made = NginxAtWork(free_port())
        self.addCleanup(made.end)
        done = made.test()
        self.assertEqual(done.returncode, 0, done.stderr)
        self.assertNotRegex(done.stderr, "emerg|warn")

    def test_a_day_of_the_office_goes_through_tls(self) -> None:
        desk = DeskAtWork()
        self.addCleanup(desk.end)
        nginx = self.nginx(desk.port, NO_RATE)
        go_through(self, nginx.ask)
        self.check_logs(nginx)
        self.check_targets(nginx)

    def check_logs(self, nginx: NginxAtWork) -> None:
        """The log has each request, and neither tokens nor what stands behind a `?`."""
        nginx.ask("ann", "GET", f"/cases?token={TOKENS['ann']}")
        logs = nginx.logs("GET /cases 404", 1)
        self.assertIn("GET /cases/r1 200", logs)
        self.assertIn("POST /rulings 403", logs)
        for token in TOKENS.values():
            self.assertNotIn(token, logs)

    def check_targets(self, nginx: NginxAtWork) -> None:
        """A target comes to the desk byte for byte; a body without a length gets one."""
        self.assertEqual(nginx.ask("ann", "GET", "/cases?x")[0::2], (404, b'{"error":"no route"}'))
        self.assertEqual(nginx.ask("ann", "GET", "/cases/%2e%2e")[0::2], (404, b'{"error":"no such case"}'))
        body = iter([submission("declared", "chunked").encode()])
        self.assertEqual(nginx.ask("ann", "POST", "/cases", body)[0], 201)

    def test_old_tls_and_a_name_that_is_not_the_desks_are_not_spoken_with(self) -> None:
        desk = DeskAtWork(standin=True)
        self.addCleanup(desk.end)
        nginx = self.nginx(desk.port)
        old = ssl.SSLContext(ssl.PROTOCOL_TLS_CLIENT)
        old.check_hostname, old.verify_mode = False, ssl.CERT_NONE
        old.set_ciphers("ALL:@SECLEVEL=0")
        with warnings.catch_warnings():
            warnings.simplefilter("ignore", DeprecationWarning)
            old.minimum_version = old.maximum_version = ssl.TLSVersion.TLSv1_1
        with socket.create_connection(("127.0.0.1", nginx.port)) as plain, self.assertRaises(ssl.SSLError):
            old.wrap_socket(plain)
        for version in (ssl.TLSVersion.TLSv1_2, ssl.TLSVersion.TLSv1_3):
            connection = nginx.connection(minimum_version=version, maximum_version=version)
            connection.request("GET", "/cases", headers={"x-desk-token": TOKENS["ann"]})
            reply = connection.getresponse()
            self.assertEqual((reply.status, reply.read()), (200, b'{"cases":[]}'))
            self.assertIn("max-age", reply.getheader("strict-transport-security"))
            connection.close()


class Limits(Nginx):
    """What nginx refuses itself: a port behind it that counts says what came through."""

    def setUp(self) -> None:
        self.heads: list[bytes] = []
        self.socket = socket.create_server(("127.0.0.1", 0))
        self.addCleanup(self.stop)
        self.answer: bytes | None = b"HTTP/1.1 200 OK\r\ncontent-type: application/json\r\ncontent-length: 2\r\n\r\n{}"
        threading.Thread(target=self.serve, daemon=True).start()

    def stop(self) -> None:
        """Ends the port: an accept that waits would hold it open for one connection more."""
        with contextlib.suppress(OSError):
            self.socket.shutdown(socket.SHUT_RDWR)
        self.socket.close()

    def serve(self) -> None:
        while True:
            try:
                peer, _ = self.socket.accept()
            except OSError:
                return
            with peer:
                head = b""
                while b"\r\n\r\n" not in head:
                    part = peer.recv(65536)
                    if not part:
                        break
                    head += part
                self.heads.append(head.split(b"\r\n\r\n")[0])
                if self.answer:
                    peer.sendall(self.answer)
                    peer.shutdown(socket.SHUT_WR)
                    while peer.recv(1 << 20):
                        pass

    @property
    def behind(self) -> int:
        return self.socket.getsockname()[1]

    def test_a_command_is_sent_once_though_no_reply_comes(self) -> None:
        self.answer = None
        nginx = self.nginx(self.behind)
        for method, path in (("POST", "/decisions"), ("GET", "/cases")):
            self.heads.clear()
            reply = nginx.ask("rex", method, path, "" if method == "POST" else None)
            self.assertEqual(reply, (502, "application/json", b'{"error":"no reply from the desk"}'))
            self.assertEqual(len(self.heads), 1)

    def test_a_desk_that_is_away_is_said_to_be(self) -> None:
        nginx = self.nginx(free_port())
        self.assertEqual(nginx.ask("rex", "GET", "/cases")[::2], (502, b'{"error":"no reply from the desk"}'))

    def test_the_token_and_a_length_come_to_the_desk_and_the_connection_is_for_one_request(self) -> None:
        nginx = self.nginx(self.behind)
        self.assertEqual(nginx.ask("rex", "POST", "/decisions", "")[0], 200)
        fields = dict(line.split(b": ", 1) for line in self.heads[0].lower().split(b"\r\n")[1:])
        self.assertEqual(fields[b"x-desk-token"], TOKENS["rex"].encode())
        self.assertEqual(fields[b"content-length"], b"0")
        self.assertEqual(fields[b"connection"], b"close")
        self.assertNotIn(b"transfer-encoding", fields)

    def test_a_body_of_64_mib_goes_through_and_one_byte_more_does_not(self) -> None:
        nginx = self.nginx(self.behind)
        for length, status in ((67_108_864, 200), (67_108_865, 413)):
            connection = nginx.connection()
            connection.putrequest("POST", "/cases")
            connection.putheader("content-length", str(length))
            connection.endheaders()
            if status == 200:
                for _ in range(64):
                    connection.send(bytes(1 << 20))
            reply = connection.getresponse()
            self.assertEqual(reply.status, status)
            self.assertEqual(reply.read(), b"{}" if status == 200 else b'{"error":"body too long"}')
            connection.close()
        self.assertEqual(len(self.heads), 1)
        self.assertIn(b"content-length: 67108864", self.heads[0].lower())

    def test_a_head_that_is_too_long_is_refused(self) -> None:
        nginx = self.nginx(self.behind)
        self.assertEqual(nginx.ask("x" * 20_000, "GET", "/cases")[::2], (431, b'{"error":"head too long"}'))
        self.assertEqual(self.heads, [])

    def test_too_many_requests_are_refused(self) -> None:
        nginx = self.nginx(self.behind, ("rate=5r/s", "rate=1r/m"))
        replies = [nginx.ask("rex", "GET", "/cases")[::2] for _ in range(24)]
        self.assertEqual([status for status, _ in replies], [200] * 21 + [429] * 3)
        self.assertEqual(replies[-1][1], b'{"error":"too many requests"}')
        self.assertEqual(len(self.heads), 21)
        self.assertEqual(nginx.logs(" 429 ", 3).count(" 429 "), 3)


class Units(unittest.TestCase):
    """The units of systemd."""

    def test_systemd_finds_no_fault_in_the_units(self) -> None:
        with tempfile.TemporaryDirectory() as folder:
            for file in DEPLOY.glob("vet-*"):
                text = file.read_text().replace("/opt/vet/bin/vet", "/bin/true")
                (Path(folder) / file.name).write_text(text.replace("/opt/vet/deploy/", f"{DEPLOY}/"))
            units = sorted(str(file) for file in Path(folder).iterdir())
            self.assertEqual([Path(unit).name for unit in units],
                             ["vet-backup.service", "vet-backup.timer", "vet-desk.service"])
            done = subprocess.run(["systemd-analyze", "verify", *units], capture_output=True, text=True)
            self.assertEqual((done.returncode, done.stdout + done.stderr), (0, ""))

    def test_the_desk_runs_as_its_own_user_and_may_do_little(self) -> None:
        text = (DEPLOY / "vet-desk.service").read_text()
        for line in ("ExecStart=/opt/vet/bin/vet serve /var/lib/vet 9999", "User=vet", "UMask=0077", "Restart=always",
                     "MemoryMax=9G", "NoNewPrivileges=yes", "ProtectSystem=strict", "ProtectHome=yes",
                     "CapabilityBoundingSet=", "RestrictAddressFamilies=AF_INET", "StateDirectory=vet"):
            self.assertIn(f"\n{line}\n", text)


class Backup(unittest.TestCase):
    """The backup of a desk's cases."""

    def setUp(self) -> None:
        self.desk = DeskAtWork()
        self.addCleanup(self.desk.end)
        folder = tempfile.TemporaryDirectory()
        self.addCleanup(folder.cleanup)
        self.folder = Path(folder.name)

    def run_it(self, *words: str) -> subprocess.CompletedProcess[str]:
        made = [str(DEPLOY / "backup"), str(self.desk.office), str(self.folder), *words]
        return subprocess.run(made, capture_output=True, text=True, timeout=60)

    def test_a_backup_of_a_desk_at_work_brings_its_cases_back(self) -> None:
        self.desk.done("ann", "POST", "/cases", submission("device_id_posted", "r1"))
        self.desk.done("rex", "POST", "/decisions", "")
        done = self.run_it()
        self.assertEqual((done.returncode, done.stderr), (0, ""))
        file = Path(done.stdout.strip())
        self.assertRegex(file.name, r"^desk-\d{4}-\d\d-\d\dT\d\d-\d\d-\d\dZ\.sqlite$")
        self.assertEqual([one.name for one in self.folder.iterdir()], [file.name])
        self.assertEqual(file.stat().st_mode & 0o777, 0o600)
        self.desk.done("ann", "POST", "/cases", submission("declared", "r2"))
        self.desk.kill()
        for name in ("desk.sqlite", "desk.sqlite-wal"):
            (self.desk.office / name).unlink()
        shutil.copy(file, self.desk.office / "desk.sqlite")
        self.desk.begin()
        cases = json.loads(self.desk.done("ann", "GET", "/cases"))["cases"]
        self.assertEqual(cases, [{"reference": "r1", "state": "decided"}])
        self.assertTrue(self.desk.done("ann", "GET", "/cases/r1/report").startswith(b"flagged 1\n"))
        self.desk.done("ann", "POST", "/cases", submission("declared", "r2"))

    def test_where_there_is_a_journal_it_is_what_is_copied(self) -> None:
        self.desk.done("ann", "GET", "/cases")
        journal = b"VETJRNL1\x01" + (2**63).to_bytes(8, "little")
        (self.desk.office / "desk.journal").write_bytes(journal)
        old = [f"desk-2025-01-0{day}T00-00-00Z.{kind}" for day, kind in ((1, "sqlite"), (2, "journal"), (3, "sqlite"))]
        for name in old:
            (self.folder / name).write_text("x")
        done = self.run_it("--keep", "3")
        self.assertEqual((done.returncode, done.stderr), (0, ""))
        file = Path(done.stdout.strip())
        self.assertRegex(file.name, r"^desk-\d{4}-\d\d-\d\dT\d\d-\d\d-\d\dZ\.journal$")
        self.assertEqual((file.read_bytes(), file.stat().st_mode & 0o777), (journal, 0o600))
        self.assertEqual({one.name for one in self.folder.iterdir()}, {*old[1:], file.name})

    def test_the_latest_are_kept_and_nothing_else_is_touched(self) -> None:
        self.desk.done("ann", "GET", "/cases")
        old = [f"desk-2025-01-0{day}T00-00-00Z.sqlite" for day in range(1, 6)]
        for name in (*old, "notes.txt", "desk.sqlite", "desk-2025-01-01T00-00-00Z.sqlite.old"):
            (self.folder / name).write_text("x")
        (self.folder / ".desk-left").mkdir()
        os.utime(self.folder / ".desk-left", (time.time() - 100_000,) * 2)
        (self.folder / ".desk-now").mkdir()
        done = self.run_it("--keep", "3")
        self.assertEqual((done.returncode, done.stderr), (0, ""))
        left = {"notes.txt", "desk.sqlite", "desk-2025-01-01T00-00-00Z.sqlite.old", ".desk-now"}
        left |= {*old[3:], Path(done.stdout.strip()).name}
        self.assertEqual({file.name for file in self.folder.iterdir()}, left)

    def test_where_there_is_no_backup_it_says_why_and_leaves_nothing(self) -> None:
        self.desk.kill()
        for name in ("desk.sqlite", "desk.sqlite-wal"):
            (self.desk.office / name).unlink(missing_ok=True)
        (self.folder / "desk-2025-01-01T00-00-00Z.sqlite").write_text("x")
        before = sorted(self.folder.iterdir())
        for text, data in (("is not there", None), ("no whole database", b"x" * 5000), ("is damaged", damaged())):
            if data is not None:
                (self.desk.office / "desk.sqlite").write_bytes(data)
                time.sleep(0.1)
            done = self.run_it("--keep", "1")
            self.assertEqual((done.returncode, done.stdout), (1, ""), text)
            self.assertRegex(done.stderr, f"^backup: .*{text}.*\n$")
            self.assertEqual(sorted(self.folder.iterdir()), before)
        self.assertIn("--keep is 1 or more", self.run_it("--keep", "0").stderr)


def damaged() -> bytes:
    """A database whose index lacks a row of its table."""
    with tempfile.TemporaryDirectory() as folder:
        file = Path(folder) / "x.sqlite"
        base = sqlite3.connect(file, isolation_level=None)
        base.execute("CREATE TABLE t (a INTEGER, b TEXT)")
        base.execute("CREATE INDEX i ON t (a)")
        base.executemany("INSERT INTO t VALUES (?, ?)", [(n, "x") for n in range(100)])
        base.execute("PRAGMA writable_schema = ON")
        base.execute("UPDATE sqlite_schema SET sql = 'CREATE INDEX i ON t (b)' WHERE name = 'i'")
        base.close()
        return file.read_bytes()


class Readme(unittest.TestCase):
    """deploy/README.md names what is there, and what it copies is enough."""

    def test_a_page_is_made_where_its_lines_have_put_program_and_tools(self) -> None:
        made = tempfile.TemporaryDirectory()
        self.addCleanup(made.cleanup)
        folder = Path(made.name)
        (folder / "program").write_text("#!/bin/sh\necho clear\n")
        lines = [line for line in (DEPLOY / "README.md").read_text().splitlines()
                 if re.fullmatch(r"    (install -D|cp -r|ln -s) .* /opt/vet/\S*", line)]
        self.assertEqual(len(lines), 3)
        text = "\n".join(lines).replace("/opt/vet", f"{folder}/opt").replace("crates/vet/out/vet", f"{folder}/program")
        subprocess.run(["bash", "-e", "-c", text], cwd=TOP, check=True)
        words = [str(folder / "opt/tools/page"), str(TOP / "examples/declared"), "-o", str(folder / "app.html")]
        done = subprocess.run(words, capture_output=True, text=True, env={"PATH": "/usr/bin:/bin"})
        self.assertEqual(done.returncode, 0, done.stderr)
        self.assertIn("<h1>Report on", (folder / "app.html").read_text())

    def test_it_names_each_file_and_no_other_one(self) -> None:
        text = (DEPLOY / "README.md").read_text()
        named = set(re.findall(r"`deploy/([\w.-]+)`", text))
        self.assertEqual(named, {file.name for file in DEPLOY.iterdir()} - {"README.md"})


if __name__ == "__main__":
    unittest.main()
