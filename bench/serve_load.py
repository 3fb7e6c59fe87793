#!/usr/bin/env python3
"""The desk under load: 10,000 requests one after the other, 200 connections that say nothing, sixteen that stay
silent beside an honest one, 1,000 that break off, 100 that announce the greatest body and send ten bytes of it,
sixteen that announce a body and stop, 200 that never read their reply, and one that sends a byte every five seconds.

usage: bench/serve_load.py PROGRAM [REQUESTS [SILENT [BROKEN]]]

PROGRAM is the built program, as crates/vet/out/vet. The desk is started in a copy of examples/office on a free port.
Each whole request has to be answered, those that come behind silent and broken connections too, and beside sixteen
that are silent or slow within 100 milliseconds. Printed are requests per second, beside those of `python3 -m
http.server` on this machine, how long an honest peer waited at most, and the desk's memory before and after.
"""

import json
import os
import shutil
import socket
import subprocess
import sys
import tempfile
import threading
import time

TOP = os.path.dirname(os.path.dirname(os.path.abspath(__file__)))
MOST = 9999
QUEUE = 100


def free_port():
    with socket.socket() as s:
        s.bind(("127.0.0.1", 0))
        return s.getsockname()[1]


def connected(port):
    for _ in range(600):
        try:
            return socket.create_connection(("127.0.0.1", port), timeout=300)
        except ConnectionRefusedError:
            time.sleep(0.1)
    raise SystemExit("nobody listens")


def exchanged(port, request):
    with connected(port) as s:
        s.sendall(request)
        reply = b""
        while part := s.recv(65536):
            reply += part
    return reply


def status(reply):
    return int(reply.split(b" ", 2)[1])


def memory(process):
    """Resident memory in KB, now and at most, and the greatest address space."""
    with open(f"/proc/{process.pid}/status") as f:
        fields = dict(line.split(":", 1) for line in f)
    return [int(fields[key].split()[0]) for key in ("VmRSS", "VmHWM", "VmPeak")]


class Desk:
    """A desk that is started anew where it took as many connections as it may."""

    def __init__(self, program, office):
        self.program, self.office, self.left, self.process, self.printed = program, office, 0, None, []
        self.port = int(next(l for l in open(f"{office}/office.toml") if l.startswith("port")).split("=")[1])

    def take(self):
        if self.left == 0:
            self.end()
            self.process = subprocess.Popen(
                [self.program, "serve", self.office, str(MOST)], stdout=subprocess.PIPE, text=True
            )
            self.left = MOST
        self.left -= 1

    def end(self):
        if self.process:
            # What is still left of the connections that it waits for.
            for _ in range(self.left):
                with connected(self.port):
                    pass
            self.printed.append(self.process.communicate(timeout=600)[0].strip())
            self.process, self.left = None, 0

    def exchanged(self, request):
        self.take()
        return exchanged(self.port, request)


def dripped(s):
    """Sends a byte every five seconds, until the desk closes the connection."""
    try:
        while True:
            s.sendall(b"G")
            time.sleep(5)
    except OSError:
        pass


def is_closed(s):
    """Whether the desk closed the connection, of which it sends nothing before."""
    s.setblocking(False)
    try:
        return s.recv(1) == b""
    except BlockingIOError:
        return False
    except OSError:
        return True


def waited(desk, request):
    """After how many milliseconds a request is answered."""
    begin = time.monotonic()
    assert status(desk.exchanged(request)) == 200
    return (time.monotonic() - begin) * 1000


def beside_others(desk, request, sent, seconds, count=16):
    """How long the requests of an honest peer wait at most, while others have sent this and do no more."""
    others = []
    for _ in range(count):
        desk.take()
        others.append(connected(desk.port))
        others[-1].sendall(sent)
    end = time.monotonic() + seconds
    longest = 0
    while time.monotonic() < end:
        longest = max(longest, waited(desk, request))
        time.sleep(0.02)
    for s in others:
        s.close()
    return longest


def rate(count, once):
    begin = time.monotonic()
    for _ in range(count):
        once()
    return count / (time.monotonic() - begin)


def beside(folder, request, count):
    port = free_port()
    server = subprocess.Popen(
        [sys.executable, "-m", "http.server", "--bind", "127.0.0.1", "--directory", folder, str(port)],
        stdout=subprocess.DEVNULL,
        stderr=subprocess.DEVNULL,
    )
    try:
        exchanged(port, request)

        def once():
            assert status(exchanged(port, request)) == 200

        return rate(count, once)
    finally:
        server.terminate()
        server.wait()


def main():
    program = os.path.abspath(sys.argv[1])
    requests, silent, broken = (int(n) for n in sys.argv[2:] + ["10000", "200", "1000"][len(sys.argv) - 2 :])
    office = tempfile.mkdtemp()
    desk = None
    try:
        shutil.copy(f"{TOP}/examples/office/lists.toml", office)
        with open(f"{TOP}/examples/office/office.toml") as f:
            lines = [f"port = {free_port()}\n" if l.startswith("port") else l for l in f]
        with open(f"{office}/office.toml", "w") as f:
            f.writelines(lines)
        desk = Desk(program, office)
        token = next(l.split('"')[1] for l in lines if l.startswith("token"))
        head = f"x-desk-token: {token}\r\nhost: desk\r\n"
        listed = f"GET /cases HTTP/1.1\r\n{head}\r\n".encode()
        body = json.dumps({"reference": "r1", "manifest": "", "layouts": "", "declaration": "", "dex": ["AAAA"]})
        submitted = f"POST /cases HTTP/1.1\r\n{head}content-length: {len(body)}\r\n\r\n{body}".encode()
        assert status(desk.exchanged(submitted)) == 201
        assert status(desk.exchanged(listed)) == 200
        before = memory(desk.process)

        def once():
            assert status(desk.exchanged(listed)) == 200

        print(f"{requests} requests: {rate(requests, once):.0f} a second")
        page = b"GET /office.toml HTTP/1.0\r\n\r\n"
        print(f"python3 -m http.server: {beside(office, page, requests):.0f} a second")

        # Connections that break off, each with some bytes of a request.
        for i in range(broken):
            desk.take()
            with connected(desk.port) as s:
                s.sendall(submitted[: i % len(submitted)])
        assert status(desk.exchanged(listed)) == 200
        print(f"{broken} that broke off: the next request was answered")

        # Connections that announce 64 MiB, of which the desk reserves none before it comes.
        announced = f"POST /cases HTTP/1.1\r\n{head}content-length: 67108864\r\n\r\n{body[:10]}".encode()
        peak = memory(desk.process)[2]
        for _ in range(100):
            desk.take()
            with connected(desk.port) as s:
                s.sendall(announced)
        assert status(desk.exchanged(listed)) == 200
        grown = memory(desk.process)[2] - peak
        assert grown < 32768, f"{grown} KB"
        print(f"100 that announced 64 MiB and broke off: {grown} KB more of address space")

        # Connections that say nothing, as many open at once as the queue of the system takes.
        begin = time.monotonic()
        for some in range(0, silent, QUEUE):
            quiet = []
            for _ in range(min(QUEUE, silent - some)):
                desk.take()
                quiet.append(connected(desk.port))
            for s in quiet:
                s.close()
        assert status(desk.exchanged(listed)) == 200
        print(f"{silent} that said nothing: the next request was answered after {time.monotonic() - begin:.1f} s")
        longest = beside_others(desk, listed, b"", 12)
        print(f"sixteen silent ones, until they were given up: an honest one was answered within {longest:.0f} ms")
        assert longest < 100, longest
        longest = beside_others(desk, listed, announced, 12)
        print(f"sixteen that announced a body and stopped: an honest one was answered within {longest:.0f} ms")
        assert longest < 100, longest
        longest = beside_others(desk, listed, listed, 2, 200)
        print(f"200 that never read their reply: an honest one was answered within {longest:.0f} ms")
        desk.take()
        with connected(desk.port) as slow:
            threading.Thread(target=dripped, args=(slow,), daemon=True).start()
            begin = time.monotonic()
            longest = 0
            while not is_closed(slow):
                longest = max(longest, waited(desk, listed))
                time.sleep(0.5)
            held = time.monotonic() - begin
            assert 115 < held < 135, held
            print(f"one that sent a byte every 5 s for {held:.1f} s: an honest one was answered within {longest:.0f} ms")
        after = memory(desk.process)
        print(f"memory in KB before {before[0]} (at most {before[1]}), after {after[0]} (at most {after[1]})")
        desk.end()
        print("; ".join(desk.printed))
    finally:
        if desk and desk.process:
            desk.process.terminate()
            desk.process.wait()
        shutil.rmtree(office)


if __name__ == "__main__":
    main()
