"""`submit`: the words, the folder, what is sent, and what becomes of a desk's answers; with a desk at work besides."""
from __future__ import annotations

import base64
import contextlib
import json
import os
import queue
import shutil
import socket
import subprocess
import tempfile
import time
import unittest
from concurrent.futures import ThreadPoolExecutor
from pathlib import Path

from tests.desk_at_work import TOKENS, DeskAtWork, free_port
from tests.fake_desk import FakeDesk, Proxy, Reply, rash, reply, taken
from tests.program import CHECKED, answer, at_once, program
from tests.support import EXAMPLES

APP = EXAMPLES / "device_id_posted"
USAGE = (4, "unknown command or argument\n")
ACCEPTED = (0, "accepted r1\n")
FILE_LIMIT, BODY_LIMIT = 16_777_216, 67_108_864
# Lines of words that hand nothing in, each word behind a space; `_` is an empty one.
NO_SUBMIT = ("submit", "submit D", "submit D r1 1", "Submit D r1", "submit _ r1", "submit D _", "submit D r/1",
             "submit D r:1", "submit D r\t1", "submit D é", f"submit D {'r' * 65}",
             f"submit {'D'.ljust(1025, '/')} r1")
# Texts of a client file that is none, and why; each of these has the rest of what it needs.
REST = {"port": "port = 1\n", "token": 'token = "12345678"\n', "tries": "tries = 1\n"}
NO_CLIENT = {
    "port = 0": "range port", "port = 65536": "range port", "port = -1": "range port", 'port = "1"': "wrong port",
    "token = 12345678": "wrong token", 'token = "1234567"': "range token", f'token = "{"t" * 129}"': "range token",
    'token = "1234 5678"': "range token", 'token = "12345678é"': "range token", "tries = 0": "range tries",
    "tries = 17": "range tries", "tries = 1.0": "wrong tries", 'host = "a"': "unknown host", "Port = 1": "unknown Port",
    "port = 1\nport = 1": "not toml", "port": "not toml",
}
# What desks say once, and whether the app is then handed in.
SAID = {
    "a body longer than told": (reply(201) + b"more", True),
    "an empty body": (reply(201, b""), True),
    "ten digits": (b"HTTP/1.1 201 Created\r\nContent-Length: 0000000002\r\n\r\n{}", True),
    "eleven digits": (b"HTTP/1.1 201 Created\r\nContent-Length: 00000000002\r\n\r\n{}", False),
    "no digits": (b"HTTP/1.1 201 Created\r\nContent-Length: \r\n\r\n{}", False),
    "a sign": (b"HTTP/1.1 201 Created\r\nContent-Length: +2\r\n\r\n{}", False),
    "a mebibyte": (reply(201, b" " * 1_048_576), True),
    "a byte more": (reply(201, b" " * 1_048_577), False),
    "no length": (b"HTTP/1.1 201 Created\r\n\r\n{}", False),
    "two lengths": (reply(201, b"{}", "Content-Length: 2"), False),
    "a length of another case": (b"HTTP/1.1 201 Created\r\ncONTENT-lENGTH: 2\r\n\r\n{}", True),
    "continue": (b"HTTP/1.1 100 Continue\r\n\r\n" + reply(201), False),
    "chunks": (b"HTTP/1.1 201 Created\r\nTransfer-Encoding: chunked\r\n\r\n2\r\n{}\r\n0\r\n\r\n", False),
    "line feeds alone": (b"HTTP/1.1 201 Created\nContent-Length: 2\n\n{}", True),
    "no head": (b"201 Created\r\nContent-Length: 2\r\n\r\n{}", False),
    "HTTP/2": (b"HTTP/2 201\r\nContent-Length: 2\r\n\r\n{}", False),
    "64 fields": (reply(201, b"{}", *["a: b"] * 63), True),
    "65 fields": (reply(201, b"{}", *["a: b"] * 64), False),
    "nothing": (b"", False),
}


def head_of(size: int) -> bytes:
    """A reply whose head has so many bytes."""
    short = reply(201, b"{}", "a: ")
    return short.replace(b"a: ", b"a: " + b"x" * (size - len(short) + 2))


def app_folder(folder: Path, port: int, tries: int) -> Path:
    """Makes the folder of an app to hand in, without lists."""
    folder.mkdir()
    for file in ("manifest.toml", "layouts.toml", "declaration.toml", "classes.dex"):
        shutil.copy(APP / file, folder)
    (folder / "client.toml").write_text(f'port = {port}\ntoken = "{TOKENS["ann"]}"\ntries = {tries}\n')
    return folder


class ClientCase(unittest.TestCase):
    """A test with folders of apps to hand in."""

    def setUp(self) -> None:
        self.top = Path(tempfile.mkdtemp(prefix="vet-submit-"))
        self.addCleanup(shutil.rmtree, self.top)

    def folder(self, name: str = "D", port: int = 1, tries: int = 1) -> Path:
        """The folder of an app to hand in, under this name."""
        return app_folder(self.top / name, port, tries)

    def desk(self, *replies: Reply) -> FakeDesk:
        """A desk that says these replies, a connection each."""
        made = FakeDesk(*replies)
        self.addCleanup(made.end)
        return made

    def submit(self, name: str = "D", reference: str = "r1") -> tuple[int, str]:
        """The answer to `submit`."""
        return answer(self.top, "submit", name, reference)

    def said(self, *replies: Reply, tries: int = 1) -> tuple[tuple[int, str], list[bytes]]:
        """The answer where a desk says these, and what it was sent."""
        desk = self.desk(*replies)
        name = f"D{desk.port}"
        self.folder(name, desk.port, tries)
        return self.submit(name), desk.requests


def request_for(folder: Path, reference: str) -> bytes:
    """The request that hands in the app of a folder."""
    texts = {it: (folder / f"{it}.toml").read_bytes().decode() for it in ("manifest", "layouts", "declaration")}
    dex = [base64.b64encode(it.read_bytes()).decode() for it in sorted(folder.glob("classes*.dex"))]
    app = texts | {"dex": dex, "reference": reference}
    body = json.dumps(app, ensure_ascii=False, separators=(",", ":"), sort_keys=True).encode()
    head = ("POST /cases HTTP/1.1", "host: 127.0.0.1", f"x-desk-token: {TOKENS['ann']}",
            f"content-length: {len(body)}", "")
    return "".join(f"{line}\r\n" for line in head).encode() + body


class Words(ClientCase):
    def test_words_that_hand_nothing_in(self) -> None:
        self.folder()
        words = [["" if it == "_" else it.replace("\t", " ") for it in line.split(" ")] for line in NO_SUBMIT]
        self.assertEqual(at_once(lambda it: answer(self.top, *it), words), [USAGE] * len(words))

    def test_the_longest_words(self) -> None:
        desk = self.desk(reply(201))
        folder = self.folder(port=desk.port)
        reference = "Az0._-" + "r" * 58
        self.assertEqual(self.submit("D".ljust(1024, "/"), reference), (0, f"accepted {reference}\n"))
        self.assertEqual(desk.requests, [request_for(folder, reference)])


class Folder(ClientCase):
    def refused(self, **files: bytes | int | None) -> tuple[int, str]:
        """The answer where these files of the folder have these bytes or this length, or are absent."""
        name = f"D{len(list(self.top.iterdir()))}"
        folder = self.folder(name)
        for file, content in files.items():
            path = folder / file.replace("_", ".")
            if content is None:
                path.unlink()
            elif isinstance(content, int):
                os.truncate(path, content)
            else:
                path.write_bytes(content)
        return self.submit(name)

    def test_a_client_file_that_is_none(self) -> None:
        texts = {b"": "missing port", b"tries = 1\nToken = 1\nhost = 1\n": "unknown Token"}
        for key in REST:
            texts["".join(line for other, line in REST.items() if other != key).encode()] = f"missing {key}"
        for line, reason in NO_CLIENT.items():
            rest = "".join(text for key, text in REST.items() if not line.startswith(key))
            texts[f"{line}\n{rest}".encode()] = reason
        texts["".join(REST.values()).encode().replace(b"5678", b"5678\xff")] = "not toml"
        for text, reason in texts.items():
            with self.subTest(text):
                self.assertEqual(self.refused(client_toml=text), (3, f"refused client.toml: {reason}\n"))

    def test_a_client_file_at_its_limits(self) -> None:
        desk = self.desk(reply(201), reply(200))
        for token, tries in (("!2345678", 1), ("~" * 128, 16)):
            folder = self.folder(f"D{tries}")
            (folder / "client.toml").write_text(f'tries = {tries}\n# a line\ntoken = "{token}"\nport = {desk.port}\n')
            self.assertEqual(self.submit(folder.name), ACCEPTED)
            self.assertIn(f"\r\nx-desk-token: {token}\r\n".encode(), desk.requests[-1])

    def test_a_file_that_is_absent_or_too_long(self) -> None:
        for file in ("client_toml", "manifest_toml", "layouts_toml", "declaration_toml", "classes_dex"):
            self.assertEqual(self.refused(**{file: None}), (3, f"refused {file.replace('_', '.')}: absent\n"))
        for file in ("client_toml", "classes_dex"):
            name = file.replace("_", ".")
            found = self.refused(**{file: FILE_LIMIT + 1})
            self.assertEqual(found, (3, f"refused {name}: longer than {FILE_LIMIT}\n"))

    def test_a_file_that_cannot_be_read(self) -> None:
        for name in ("client.toml", "manifest.toml", "classes.dex"):
            folder = self.folder(f"of_{name}")
            (folder / name).unlink()
            (folder / name).mkdir()
            self.assertEqual(self.submit(folder.name), (5, f"read fault {folder.name}/{name}\n"))

    def test_the_first_refusal_in_the_order_of_the_files(self) -> None:
        no = b"\xff"
        self.assertEqual(self.refused(client_toml=b"", manifest_toml=no), (3, "refused client.toml: missing port\n"))
        no_package = (3, "refused manifest.toml: missing package\n")
        self.assertEqual(self.refused(manifest_toml=b"", layouts_toml=None), no_package)
        self.assertEqual(self.refused(layouts_toml=no, classes_dex=None), (3, "refused classes.dex: absent\n"))
        two = b'package = "a"\ndex_files = 2\n'
        self.assertEqual(self.refused(manifest_toml=two), (3, "refused classes2.dex: absent\n"))

    def test_a_text_that_is_not_utf_8(self) -> None:
        no = b"# \xe9\n"
        self.assertEqual(self.refused(manifest_toml=no), (3, "refused manifest.toml: not toml\n"))
        self.assertEqual(self.refused(layouts_toml=no, declaration_toml=no), (3, "refused layouts.toml: not text\n"))
        self.assertEqual(self.refused(declaration_toml=no), (3, "refused declaration.toml: not text\n"))


class Body(ClientCase):
    def test_texts_with_every_control_character_and_bytes_above_7f(self) -> None:
        desk = self.desk(reply(201))
        folder = self.folder(port=desk.port)
        characters = "".join(map(chr, range(256))) + "\u2028 \U0001f600 \ufffd\\\""
        (folder / "layouts.toml").write_bytes(characters.encode())
        (folder / "declaration.toml").write_bytes(b"")
        self.assertEqual(self.submit(), ACCEPTED)
        self.assertEqual(desk.requests, [request_for(folder, "r1")])

    def test_sixteen_dex_files_go_in_their_order(self) -> None:
        desk = self.desk(reply(201))
        folder = self.folder(port=desk.port)
        (folder / "manifest.toml").write_text('package = "a"\ndex_files = 16\n')
        for number in range(2, 17):
            (folder / f"classes{number}.dex").write_bytes(bytes([number]) * number)
        (folder / "classes17.dex").write_bytes(b"no")
        self.assertEqual(self.submit(), ACCEPTED)
        sent = json.loads(desk.requests[0].partition(b"\r\n\r\n")[2])["dex"]
        due = [bytes([number]) * number for number in range(2, 17)]
        self.assertEqual([base64.b64decode(it) for it in sent[1:]], due)

    def four_files(self, name: str, port: int, more: int) -> None:
        """The folder of an app whose body has so many bytes more than 67,108,864."""
        folder = self.folder(name, port)
        (folder / "manifest.toml").write_text('package = "a"\ndex_files = 4\n')
        for file in ("classes", "classes2", "classes3", "classes4"):
            (folder / f"{file}.dex").write_bytes(bytes(12_582_000))
        (folder / "layouts.toml").write_text("")
        missing = BODY_LIMIT - len(request_for(folder, "r1").partition(b"\r\n\r\n")[2])
        (folder / "layouts.toml").write_text("x" * (missing + more))

    def test_a_body_of_67108864_bytes_is_sent_and_a_longer_one_is_refused(self) -> None:
        if program().name == "unproved":
            self.skipTest("the unproved program takes minutes for so long a body")
        desk = self.desk(reply(201))
        self.four_files("D", desk.port, 0)
        self.four_files("E", desk.port, 1)
        # Here the files alone have more bytes.
        folder = self.folder("F", desk.port)
        (folder / "manifest.toml").write_text('package = "a"\ndex_files = 5\n')
        for file in ("classes", "classes2", "classes3", "classes4", "classes5"):
            (folder / f"{file}.dex").touch()
            os.truncate(folder / f"{file}.dex", FILE_LIMIT)
        found = at_once(self.submit, ("D", "E", "F"))
        self.assertEqual(found, [ACCEPTED, *[(3, "refused submission: longer than 67108864\n")] * 2])
        self.assertEqual([len(it.partition(b"\r\n\r\n")[2]) for it in desk.requests], [BODY_LIMIT])


class Replies(ClientCase):
    def test_an_app_is_handed_in_once_the_desk_has_it(self) -> None:
        for status in (200, 201):
            self.assertEqual(self.said(reply(status))[0], ACCEPTED)

    def test_another_answer_is_told_by_its_status(self) -> None:
        for status in (202, 204, 301, 400, 401, 403, 409, 413, 422, 500, 599):
            self.assertEqual(self.said(reply(status), tries=2)[0], (3, f"desk answered {status}\n"))

    def test_a_desk_that_ends_the_first_connection_gets_the_same_bytes_again(self) -> None:
        found, requests = self.said(b"", reply(201), tries=2)
        self.assertEqual(found, ACCEPTED)
        self.assertEqual(len(requests), 2)
        self.assertEqual(requests[0], requests[1])

    def test_as_many_tries_as_the_client_says(self) -> None:
        found, requests = self.said(b"", b"", reply(201), tries=2)
        self.assertEqual((found, len(requests)), ((10, "no answer after 2 tries\n"), 2))

    def test_a_desk_that_is_busy_or_full_is_asked_again(self) -> None:
        for status in (503, 507):
            found, requests = self.said(reply(status), reply(201), tries=2)
            self.assertEqual((found, len(requests)), (ACCEPTED, 2))
            self.assertEqual(self.said(reply(status))[0], (10, "no answer after 1 tries\n"))

    def test_nobody_listens(self) -> None:
        self.folder(port=free_port())
        self.assertEqual(self.submit(), (10, "no answer after 1 tries\n"))

    def test_what_a_desk_says(self) -> None:
        heads = {"a head of 16383": (head_of(16_383), True), "a head of 16384": (head_of(16_384), True),
                 "a head of 16385": (head_of(16_385), False)}
        found = at_once(lambda it: self.said(it[0])[0], (SAID | heads).values())
        for name, got, (_, is_reply) in zip(SAID | heads, found, (SAID | heads).values()):
            with self.subTest(name):
                self.assertEqual(got, ACCEPTED if is_reply else (10, "no answer after 1 tries\n"))

    def test_a_reply_that_is_cut_off(self) -> None:
        whole = reply(201)
        cuts = range(1, len(whole))
        found = at_once(lambda cut: self.said(whole[:cut])[0], cuts)
        self.assertEqual(found, [(10, "no answer after 1 tries\n")] * len(cuts))

    def test_a_reply_that_comes_in_pieces(self) -> None:
        def slow(connection: socket.socket) -> None:
            taken(connection)
            for byte in reply(201):
                connection.sendall(bytes([byte]))
                time.sleep(0.002)
        self.assertEqual(self.said(slow)[0], ACCEPTED)

    def test_a_reply_before_the_request_is_taken(self) -> None:
        self.assertEqual(self.said(rash(reply(401)))[0], (3, "desk answered 401\n"))


class Output(ClientCase):
    def test_an_output_that_takes_nothing(self) -> None:
        desk = self.desk(reply(201))
        self.folder(port=desk.port)
        with open("/dev/full", "wb") as full:
            ran = subprocess.run([program(), "submit", "D", "r1"], cwd=self.top, stdout=full,
                                 stderr=subprocess.DEVNULL, check=False)
        self.assertEqual((ran.returncode, len(desk.requests)), (6, 1))


class BothEnds(ClientCase):
    """With a desk at work: the program's where that is built, else the stand-in."""

    def setUp(self) -> None:
        super().setUp()
        self.at_work = DeskAtWork()
        self.addCleanup(self.at_work.end)

    def cases(self) -> list[str]:
        """The references of ann's cases."""
        return [it["reference"] for it in json.loads(self.at_work.done("ann", "GET", "/cases"))["cases"]]

    def test_a_case_is_handed_in_once_however_often_it_is_sent(self) -> None:
        folder = self.folder(port=self.at_work.port)
        self.assertEqual([self.submit(), self.submit()], [ACCEPTED] * 2)
        (folder / "declaration.toml").write_text("# another\n")
        self.assertEqual(self.submit(), (3, "desk answered 409\n"))
        (folder / "client.toml").write_text(f'port = {self.at_work.port}\ntoken = "{TOKENS["rex"]}"\ntries = 1\n')
        self.assertEqual(self.submit(), (3, "desk answered 403\n"))
        self.assertEqual(self.cases(), ["r1"])

    def test_200_submissions_through_a_proxy_that_loses_requests_and_replies_are_a_case_each(self) -> None:
        proxy = Proxy(self.at_work.port, "the first")
        self.addCleanup(proxy.end)
        self.folder(port=proxy.port, tries=16)
        references = [f"r{number:03}" for number in range(200)]
        # More at once than there are processors: most of them pause before they try again.
        with ThreadPoolExecutor(32) as clients:
            found = list(clients.map(lambda it: self.submit("D", it), references))
        self.assertEqual(found, [(0, f"accepted {it}\n") for it in references])
        self.assertEqual(self.cases(), references)
        self.assertGreater(min(proxy.lost["cut request"], proxy.lost["cut reply"]), 50)


class WritesNothing(unittest.TestCase):
    """With a desk that takes the request and writes nothing. The run lasts two minutes: it is begun before all other
    tests of the module, and is asked for behind them."""
    top: Path
    desk: FakeDesk
    ran: subprocess.Popen[bytes] | None = None
    lasted: queue.Queue[float]

    @classmethod
    def begin(cls) -> None:
        """Begins the run."""
        path = program()
        cls.top = Path(tempfile.mkdtemp(prefix="vet-submit-"))
        cls.desk = FakeDesk(cls.hang)
        cls.lasted = queue.Queue()
        app_folder(cls.top / "D", cls.desk.port, 1)
        cls.ran = subprocess.Popen([path, "submit", "D", "r1"], cwd=cls.top, env=CHECKED, stdin=subprocess.DEVNULL,
                                   stdout=subprocess.PIPE, stderr=subprocess.DEVNULL)

    @classmethod
    def end(cls) -> None:
        """Ends the run where nobody asked for it, and takes its folder away."""
        if cls.ran:
            cls.ran.kill()
            cls.ran.communicate()
            cls.desk.end()
            shutil.rmtree(cls.top)

    @classmethod
    def hang(cls, connection: socket.socket) -> None:
        """Takes all that comes, and notes for how many seconds there was a connection."""
        began = time.monotonic()
        connection.settimeout(300)
        while connection.recv(1 << 16):
            pass
        cls.lasted.put(time.monotonic() - began)

    def test_it_is_given_up_after_120_seconds(self) -> None:
        program()  # which skips the test where there is none
        assert self.ran
        printed, _ = self.ran.communicate(timeout=150)
        self.assertEqual((self.ran.returncode, printed), (10, b"no answer after 1 tries\n"))
        self.assertAlmostEqual(self.lasted.get(timeout=10), 120, delta=10)


def setUpModule() -> None:
    """Begins what lasts longest. Without a program each test says that there is none."""
    with contextlib.suppress(unittest.SkipTest):
        WritesNothing.begin()


def tearDownModule() -> None:
    """Leaves no run behind."""
    WritesNothing.end()


if __name__ == "__main__":
    unittest.main()
