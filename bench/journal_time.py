#!/usr/bin/env python3
"""Times the desk over journals of growing length: the first command after a start, which reads all, and the next ones.

usage: bench/journal_time.py PROGRAM [CASES ..]

PROGRAM is the built program, as crates/vet/out/vet. For each number of cases (1,000, 10,000 and 100,000 where none is named)
a journal is written by its format: each case is the app of examples/device_id_posted, handed in by one of a hundred
developers and decided. Prints the size of the journal, the milliseconds that the first command of a developer takes, those
of the second, the least of a hundred submissions, and the peak of the desk's memory.
"""

import base64
import json
import os
import shutil
import socket
import subprocess
import sys
import tempfile
import time

TOP = os.path.dirname(os.path.dirname(os.path.abspath(__file__)))
DEVELOPERS = 100


def text(content):
    return len(content).to_bytes(8, "little") + content


def record(payload):
    return b"\1" + text(payload)


def app():
    folder = f"{TOP}/examples/device_id_posted"
    parts = {}
    for part in ("manifest.toml", "layouts.toml", "declaration.toml", "classes.dex"):
        with open(f"{folder}/{part}", "rb") as f:
            parts[part.split(".")[0]] = f.read()
    return parts


def write_journal(path, cases, parts):
    content = text(parts["manifest"]) + text(parts["layouts"]) + text(parts["declaration"])
    content += (1).to_bytes(8, "little") + text(parts["classes"])
    with open(path, "wb") as f:
        f.write(b"VETJRNL1")
        for n in range(cases):
            name = text(b"dev%d" % (n % DEVELOPERS)) + text(b"r%d" % n)
            decision = b"\1" + text(b"flagged\n") + bytes(32) + text(b"rex") + (20000).to_bytes(4, "little")
            f.write(record(b"\0" + name + content) + record(b"\1" + name + decision))
        f.write(b"\0")


def free_port():
    with socket.socket() as s:
        s.bind(("127.0.0.1", 0))
        return s.getsockname()[1]


def write_office(folder, port):
    parties = [f'[[party]]\nname = "dev{n}"\nrole = "developer"\ntoken = "token-of-{n}"\n' for n in range(DEVELOPERS)]
    with open(f"{folder}/office.toml", "w") as f:
        f.write(f"port = {port}\nworkers = 1\nappeal_days = 30\n" + "\n".join(parties))
    shutil.copy(f"{TOP}/examples/office/lists.toml", folder)


def asked(port, method, path, body):
    """How long a command takes, in milliseconds."""
    head = f"{method} {path} HTTP/1.1\r\nx-desk-token: token-of-7\r\ncontent-length: {len(body)}\r\n\r\n"
    begun = time.perf_counter()
    with socket.create_connection(("127.0.0.1", port), timeout=600) as s:
        s.sendall(head.encode() + body)
        reply = b""
        while part := s.recv(65536):
            reply += part
    assert reply.split(b" ", 2)[1] in (b"200", b"201"), reply[:200]
    return (time.perf_counter() - begun) * 1000


def wait_for(port, process):
    while True:
        try:
            socket.create_connection(("127.0.0.1", port)).close()
            return
        except ConnectionRefusedError:
            assert process.poll() is None, "the desk has ended"
            time.sleep(0.01)


def peak_of(process):
    with open(f"/proc/{process.pid}/status") as f:
        return next(int(line.split()[1]) for line in f if line.startswith("VmHWM")) / 1024


def timed(program, cases, parts):
    folder, port = tempfile.mkdtemp(), free_port()
    try:
        write_office(folder, port)
        write_journal(f"{folder}/desk.journal", cases, parts)
        size = os.path.getsize(f"{folder}/desk.journal") / 1e6
        with subprocess.Popen([program, "serve", folder, "9999"], stdout=subprocess.DEVNULL) as process:
            wait_for(port, process)
            first = asked(port, "GET", "/cases/r7", b"")
            second = asked(port, "GET", "/cases/r7", b"")
            submission = {
                "manifest": parts["manifest"].decode(),
                "layouts": parts["layouts"].decode(),
                "declaration": parts["declaration"].decode(),
                "dex": [base64.b64encode(parts["classes"]).decode()],
            }
            least = min(
                asked(port, "POST", "/cases", json.dumps({**submission, "reference": f"new{n}"}).encode())
                for n in range(100)
            )
            peak = peak_of(process)
            process.kill()
        print(
            f"{cases} cases, {size:.1f} MB: first command {first:.0f} ms, second {second:.1f} ms, "
            f"submission {least:.1f} ms, {peak:.0f} MB"
        )
    finally:
        shutil.rmtree(folder)


def main():
    program = os.path.abspath(sys.argv[1])
    for cases in [int(n) for n in sys.argv[2:]] or [1000, 10000, 100000]:
        timed(program, cases, app())


if __name__ == "__main__":
    main()
