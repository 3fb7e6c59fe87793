#!/usr/bin/env python3
"""Runs the desk over journals that are empty, cut, foreign, bad, in the way, or for which the disk has no room, and
with peers that send one byte or do not read.

usage: bench/journal_cases.py PROGRAM

PROGRAM is the built program, as crates/vet/out/vet. Each row starts the desk in a copy of examples/office with what
is to be in the place of the journal, and compares the replies and the files that are left. Ends with status 1 at the
first row that is not as it is to be.
"""

import base64
import hashlib
import os
import resource
import signal
import subprocess
import sys

from killed_desk import Desk, OwnDesk, flagged_app, text_at

EMPTY = b"VETJRNL1\0"
ANN, REX = "ann-may-submit-0001", "rex-may-decide-0003"


class LimitedDesk(Desk):
    """A desk whose files have at most so many bytes: what is written behind them fails, as on a full disk."""

    def __init__(self, program, folder, port, limit):
        super().__init__(program, folder, port)
        self.limit = limit

    def start(self):
        def limited():
            signal.signal(signal.SIGXFSZ, signal.SIG_IGN)
            resource.setrlimit(resource.RLIMIT_FSIZE, (self.limit, self.limit))

        self.process = subprocess.Popen(self.words, stdout=subprocess.DEVNULL, preexec_fn=limited)


class Row(OwnDesk):
    """A folder with an office, a desk in it, and what is compared."""

    def __init__(self, program, title, limit=None):
        super().__init__(program, Desk if limit is None else lambda *words: LimitedDesk(*words, limit))
        self.title, self.journal = title, f"{self.folder}/desk.journal"

    def put(self, content):
        with open(self.journal, "wb") as f:
            f.write(content)

    def left(self):
        with open(self.journal, "rb") as f:
            return f.read()

    def start(self):
        self.desk.start()
        self.desk.connected().close()

    def same(self, found, due, what):
        if found != due:
            raise SystemExit(f"{self.title}: {what} is {found}, and not {due}")

    def asks(self, token, method, path, status, body=None):
        reply = self.desk.asked(token, method, path, body)
        self.same(reply and reply[0], status, f"{method} {path}")
        return reply and reply[1]


def is_emptied(program, title, content):
    with Row(program, title) as row:
        row.put(content)
        row.start()
        row.asks(ANN, "GET", "/cases", 200)
        row.same(row.left(), EMPTY, "the journal")
        row.same(os.path.exists(f"{row.folder}/desk.sqlite"), False, "a database")


def is_refused(program, title, content):
    with Row(program, title) as row:
        row.put(content)
        row.start()
        for _ in range(2):
            row.asks(ANN, "GET", "/cases", 503)
            row.asks(ANN, "POST", "/cases", 503, {**flagged_app(), "reference": "r1"})
        row.same(row.left(), content, "the journal")
        row.same(os.path.exists(f"{row.folder}/desk.sqlite"), False, "a database")


def folder_in_place(program):
    with Row(program, "a folder in the place of the journal") as row:
        os.mkdir(row.journal)
        row.start()
        row.asks(ANN, "GET", "/cases", 503)
        row.same(os.path.exists(f"{row.folder}/desk.sqlite"), False, "a database")


def both(program):
    with Row(program, "a journal and a database together") as row:
        row.start()
        row.asks(ANN, "POST", "/cases", 201, {**flagged_app(), "reference": "in_the_database"})
        row.desk.kill()
        names = [f"{row.folder}/{name}" for name in os.listdir(row.folder) if name.startswith("desk.sqlite")]
        before = {name: hashlib.sha256(open(name, "rb").read()).digest() for name in names}
        row.put(b"")
        row.start()
        row.asks(ANN, "GET", "/cases/in_the_database", 404)
        row.asks(ANN, "POST", "/cases", 201, {**flagged_app(), "reference": "in_the_journal"})
        row.asks(ANN, "GET", "/cases/in_the_journal", 200)
        after = {name: hashlib.sha256(open(name, "rb").read()).digest() for name in names}
        row.same(after, before, "the database")


def whole_case(program):
    """The whole way of a case, with a start behind each step; and the journal cut at each 97th byte of the record of
    the app, and at every byte behind that."""
    with Row(program, "the whole way of a case") as row:
        row.put(b"")
        app = {**flagged_app(), "reference": "r1"}
        steps = [
            (ANN, "/cases", app, 201),
            (REX, "/decisions", None, 200),
            (ANN, "/cases/r1/appeal", {"text": "not so"}, 200),
            ("sue-may-decide-0004", "/rulings", {"developer": "ann", "reference": "r1", "ruling": "uphold"}, 200),
        ]
        for token, path, body, status in steps:
            row.start()
            row.asks(token, "POST", path, status, body)
            row.desk.kill()
        whole = row.left()
    with Row(program, "a journal that is cut") as row:
        states = []
        _, added = text_at(whole, len(EMPTY))
        for size in [*range(0, 12), *range(12, added, 97), *range(added, len(whole) + 1)]:
            row.put(whole[:size])
            row.start()
            reply = row.desk.asked(ANN, "GET", "/cases/r1")
            row.desk.kill()
            state = "none" if reply[0] == 404 else reply[1].split(b'"state":"')[1].split(b'"')[0].decode()
            states += [] if states[-1:] == [state] else [state]
        due = ["none", "queued", "decided", "appealed", "ruled"]
        row.same(states, due, "what is shown of longer and longer fronts")


def full_disk(program):
    with Row(program, "a disk that is full in the middle of a submission of 40 MB", 20_000_000) as row:
        row.put(b"")
        row.start()
        row.asks(ANN, "POST", "/cases", 201, {**flagged_app(), "reference": "r1"})
        before = row.left()
        large = {**flagged_app(), "reference": "r2", "dex": [base64.b64encode(bytes(40_000_000)).decode()]}
        row.asks(ANN, "POST", "/cases", 503, large)
        row.asks(ANN, "GET", "/cases/r2", 404)
        row.asks(ANN, "GET", "/cases/r1", 200)
        row.same(row.left(), before, "the journal")
        row.asks(ANN, "POST", "/cases", 201, {**flagged_app(), "reference": "r3"})
        row.desk.kill()
        row.start()
        row.asks(ANN, "GET", "/cases/r2", 404)
        row.asks(ANN, "GET", "/cases/r3", 200)


def crowd(program):
    """Connections that send one byte and end, and ones that never read their reply and stay: the desk goes on."""
    with Row(program, "1,000 connections of one byte, and 200 that do not read") as row:
        row.put(b"")
        row.start()
        row.asks(ANN, "POST", "/cases", 201, {**flagged_app(), "reference": "r1"})
        before = row.left()
        for _ in range(1000):
            with row.desk.connected() as s:
                s.sendall(b"G")
        row.asks(ANN, "GET", "/cases/r1", 200)
        silent = []
        for _ in range(200):
            silent.append(row.desk.connected())
            silent[-1].sendall(f"GET /cases HTTP/1.1\r\nx-desk-token: {ANN}\r\n\r\n".encode())
        row.asks(ANN, "GET", "/cases/r1", 200)
        row.same(row.left(), before, "the journal")
        for s in silent:
            s.close()


def main():
    program = os.path.abspath(sys.argv[1])
    for size in range(10):
        is_emptied(program, f"{size} bytes of the empty journal", EMPTY[:size])
        is_emptied(program, f"{size} other bytes", b"X" * size)
    for length in (1, 2**32, 2**63, 2**64 - 1):
        head = EMPTY[:8] + b"\1" + length.to_bytes(8, "little")
        is_emptied(program, f"a length of {length} and nothing behind it", head)
    is_emptied(program, "a byte that is no gate", EMPTY[:8] + b"\7abc")
    is_refused(program, "ten other bytes", b"X" * 10)
    is_refused(program, "a record that is no change", EMPTY[:8] + b"\1" + (1).to_bytes(8, "little") + b"\7\0")
    folder_in_place(program)
    both(program)
    whole_case(program)
    full_disk(program)
    crowd(program)
    print("all rows as they are to be")


if __name__ == "__main__":
    main()
