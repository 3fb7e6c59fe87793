#!/usr/bin/env python3
"""Kills the desk at random moments: what it told as kept is there when it comes back, or that with one change more.

usage: bench/killed_desk.py PROGRAM [KILLS [SEED]]

PROGRAM is the built program, as crates/vet/out/vet. The desk is started in a copy of examples/office on a free port,
first over a database and then over a journal. A developer submits apps and appeals, reviewers decide and rule, one
request after the other, until the desk is killed (SIGKILL) at most 150 milliseconds after it listens. Then it is
started anew and asked for the developer's cases. Every case has to be in the state that was last told, or, for the
last request alone, which had no reply, in the state that it asked for. At the end `sqlite3` has to find the database
whole, and a reading of the journal by its format has to find all changes, and nothing behind them. Ends with status 1
at the first case that is not as it is to be.
"""

import base64
import json
import os
import random
import shutil
import signal
import socket
import subprocess
import sys
import tempfile
import threading
import time
import tomllib

# So many cases of a developer may wait for a decision.
WAITING = 1000
TOP = os.path.dirname(os.path.dirname(os.path.abspath(__file__)))


def free_port():
    with socket.socket() as s:
        s.bind(("127.0.0.1", 0))
        return s.getsockname()[1]


class Desk:
    """The desk in a folder, which is killed and started anew."""

    def __init__(self, program, folder, port):
        self.words = [program, "serve", folder, "9999"]
        self.port, self.process = port, None

    def start(self):
        self.process = subprocess.Popen(self.words, stdout=subprocess.DEVNULL)

    def kill(self):
        self.process.send_signal(signal.SIGKILL)
        self.process.wait()

    def connected(self):
        for _ in range(3000):
            try:
                return socket.create_connection(("127.0.0.1", self.port), timeout=600)
            except ConnectionRefusedError:
                if self.process.poll() is not None:
                    raise ConnectionResetError("the desk has ended")
                time.sleep(0.01)
        raise SystemExit("nobody listens")

    def asked(self, token, method, path, body=None):
        """Status and body of a reply, or None where there is no whole one."""
        content = b"" if body is None else json.dumps(body).encode()
        head = f"{method} {path} HTTP/1.1\r\nx-desk-token: {token}\r\ncontent-length: {len(content)}\r\n\r\n"
        try:
            with self.connected() as s:
                s.sendall(head.encode() + content)
                reply = b""
                while part := s.recv(65536):
                    reply += part
        except (ConnectionError, OSError):
            return None
        front, end, rest = reply.partition(b"\r\n\r\n")
        lengths = [int(l[15:]) for l in front.split(b"\r\n") if l.startswith(b"content-length:")]
        if not end or lengths != [len(rest)]:
            return None
        return int(front.split(b" ", 2)[1]), rest


def app_of(folder):
    """The parts of a submission of the app in a folder."""
    with open(f"{folder}/classes.dex", "rb") as f:
        app = {"dex": [base64.b64encode(f.read()).decode()]}
    for part in ("manifest", "layouts", "declaration"):
        with open(f"{folder}/{part}.toml") as f:
            app[part] = f.read()
    return app


def flagged_app():
    """An app against whose decision an appeal is taken."""
    return app_of(f"{TOP}/examples/device_id_posted")


class Office:
    """A developer and two reviewers, and the states of the cases as they were last told."""

    def __init__(self, desk, parties, rng):
        self.desk, self.rng, self.states, self.queue, self.app = desk, rng, {}, [], flagged_app()
        self.developer = next(p["token"] for p in parties if p["role"] == "developer")
        self.party = next(p["name"] for p in parties if p["role"] == "developer")
        self.reviewers = [p["token"] for p in parties if p["role"] == "reviewer"]
        assert len(self.reviewers) >= 2, "two reviewers are needed"

    def next_change(self):
        """Token, method, path, body, the case and the state that it is to have."""
        ruled = [r for r, s in self.states.items() if s == "appealed"]
        decided = [r for r, s in self.states.items() if s == "decided"]
        kind = self.rng.choice(["submit", "submit", "decide", "appeal", "rule"])
        if len(self.queue) >= WAITING:
            kind = "decide"
        if kind == "decide" and self.queue:
            return self.reviewers[0], "POST", "/decisions", None, self.queue[0], "decided"
        if kind == "appeal" and decided:
            reference = self.rng.choice(decided)
            return self.developer, "POST", f"/cases/{reference}/appeal", {"text": "not so"}, reference, "appealed"
        if kind == "rule" and ruled:
            reference = self.rng.choice(ruled)
            body = {"developer": self.party, "reference": reference, "ruling": "uphold"}
            return self.reviewers[1], "POST", "/rulings", body, reference, "ruled"
        reference = f"r{len(self.states)}"
        return self.developer, "POST", "/cases", {**self.app, "reference": reference}, reference, "queued"

    def note(self, reference, state):
        if state == "queued" and reference not in self.states:
            self.queue.append(reference)
        elif reference in self.queue:
            self.queue.remove(reference)
        self.states[reference] = state

    def work(self):
        """Makes changes until one has no reply: that one's case and state."""
        while True:
            token, method, path, body, reference, state = self.next_change()
            reply = self.desk.asked(token, method, path, body)
            if reply is None:
                return reference, state
            if reply[0] not in (200, 201):
                raise SystemExit(f"{method} {path}: {reply}")
            self.note(reference, state)

    def look(self, last):
        """Compares what the desk has with what it told; the last change, which had no reply, may be there."""
        reply = self.desk.asked(self.developer, "GET", "/cases")
        assert reply and reply[0] == 200, reply
        found = {c["reference"]: c["state"] for c in json.loads(reply[1])["cases"]}
        if found == self.states:
            return 0
        reference, state = last
        if found != {**self.states, reference: state}:
            due = self.states
            wrong = {r: (found.get(r), due.get(r)) for r in {*found, *due} if found.get(r) != due.get(r)}
            raise SystemExit(f"not as told: {wrong}, where the last change was {last}")
        self.note(reference, state)
        return 1


def office_in(folder, port):
    shutil.copy(f"{TOP}/examples/office/lists.toml", folder)
    with open(f"{TOP}/examples/office/office.toml") as f:
        lines = [f"port = {port}\n" if l.startswith("port") else l for l in f]
    with open(f"{folder}/office.toml", "w") as f:
        f.writelines(lines)
    return tomllib.loads("".join(lines))["party"]


class OwnDesk:
    """A desk with an office in a folder of its own: it is killed behind all, and the folder let go."""

    def __init__(self, program, made=Desk):
        self.folder, port = tempfile.mkdtemp(), free_port()
        self.parties = office_in(self.folder, port)
        self.desk = made(program, self.folder, port)

    def __enter__(self):
        return self

    def __exit__(self, *fault):
        if self.desk.process and self.desk.process.poll() is None:
            self.desk.kill()
        shutil.rmtree(self.folder)


def whole_database(folder, states):
    said = subprocess.run(
        ["sqlite3", f"{folder}/desk.sqlite", "PRAGMA integrity_check"], capture_output=True, text=True, check=True
    ).stdout.strip()
    assert said == "ok", said


def text_at(payload, at):
    """The text at an offset, and the offset behind it."""
    end = at + 8 + int.from_bytes(payload[at : at + 8], "little")
    assert end <= len(payload)
    return payload[at + 8 : end], end


def whole_journal(folder, states):
    """Reads the journal by docs/FORMATS.md: each case has as many changes as its state tells."""
    with open(f"{folder}/desk.journal", "rb") as f:
        journal = f.read()
    assert journal[:8] == b"VETJRNL1", journal[:8]
    at, made = 8, {}
    while journal[at] == 1:
        payload, end = text_at(journal, at + 1)
        _, behind = text_at(payload, 1)
        reference, _ = text_at(payload, behind)
        made.setdefault(reference.decode(), []).append(payload[0])
        at = end
    assert journal[at:] == b"\0", journal[at : at + 9]
    changes = {"queued": [0], "decided": [0, 1], "appealed": [0, 1, 2], "ruled": [0, 1, 2, 3]}
    assert made == {r: changes[s] for r, s in states.items()}, "the journal has other changes"
    assert not os.path.exists(f"{folder}/desk.sqlite"), "a database was made beside the journal"


def killed(program, kills, seed, keeper):
    rng = random.Random(seed)
    with OwnDesk(program) as own:
        if keeper == "journal":
            open(f"{own.folder}/desk.journal", "wb").close()
        desk, more = own.desk, 0
        office = Office(desk, own.parties, rng)
        for _ in range(kills):
            desk.start()
            desk.connected().close()
            timer = threading.Timer(rng.uniform(0, 0.15), desk.kill)
            timer.start()
            last = office.work()
            timer.join()
            desk.start()
            more += office.look(last)
            desk.kill()
        {"database": whole_database, "journal": whole_journal}[keeper](own.folder, office.states)
        if not office.states:
            raise SystemExit(f"{keeper}: the desk told of no case before it was killed; it is too slow to say anything")
        print(
            f"{keeper}: {kills} kills, {len(office.states)} cases: all that was told as kept was there, "
            f"{more} times one change more"
        )


def main():
    program = os.path.abspath(sys.argv[1])
    kills, seed = (int(n) for n in sys.argv[2:] + ["100", "1"][len(sys.argv) - 2 :])
    for keeper in ("database", "journal"):
        killed(program, kills, seed, keeper)


if __name__ == "__main__":
    main()
