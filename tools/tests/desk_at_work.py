"""A desk at work in a copy of examples/office, for tests.

Where VET_DESK names a program it is run with the words `serve OFFICE N`; else the proved program is, where it was
built; else the stand-in of tests/standin_desk.py.
"""

from __future__ import annotations

import base64
import http.client
import json
import os
import shutil
import socket
import subprocess
import sys
import tempfile
import time
from pathlib import Path

TOP = Path(__file__).resolve().parents[2]
TOOLS = TOP / "tools"
PROVED = TOP / "crates/vet/out/vet"
TOKENS = {
    "ann": "ann-may-submit-0001",
    "bob": "bob-may-submit-0002",
    "rex": "rex-may-decide-0003",
    "sue": "sue-may-decide-0004",
}


def free_port() -> int:
    """A port that nobody listens on, and that no other process is given until this one ends.

    The socket stays bound and never listens: a desk that names the port may listen there, and no port is drawn twice.
    """
    held = socket.socket()
    held.setsockopt(socket.SOL_SOCKET, socket.SO_REUSEADDR, 1)
    held.bind(("127.0.0.1", 0))
    port = held.getsockname()[1]
    held.detach()
    return port


def wait_for_port(port: int, process: subprocess.Popen[bytes]) -> None:
    """Waits until somebody listens on the port; the kernel's table is asked, so that no connection is used up."""
    listening = f"0100007F:{port:04X} 00000000:0000 0A"
    for _ in range(600):
        if listening in Path("/proc/net/tcp").read_text():
            return
        if process.poll() is not None:
            raise AssertionError(f"the desk ended with {process.returncode}")
        time.sleep(0.05)
    raise AssertionError("the desk did not begin to listen")


def submission(example: str, reference: str, **other: object) -> str:
    """The body that hands in an example under a reference."""
    folder = TOP / "examples" / example
    forms = {name: (folder / f"{name}.toml").read_text() for name in ("manifest", "layouts", "declaration")}
    dex = [base64.b64encode((folder / "classes.dex").read_bytes()).decode()]
    return json.dumps({"reference": reference} | forms | {"dex": dex} | other)


class DeskAtWork:
    """A desk on a free port, until `end`."""

    def __init__(self, standin: bool = False) -> None:
        self.office = Path(tempfile.mkdtemp(prefix="office-"))
        self.port = free_port()
        form = (TOP / "examples/office/office.toml").read_text().replace("port = 8650", f"port = {self.port}")
        (self.office / "office.toml").write_text(form)
        shutil.copy(TOP / "examples/office/lists.toml", self.office)
        program = os.environ.get("VET_DESK") or (str(PROVED) if PROVED.exists() else "")
        self.is_standin = standin or not program
        self._words = [sys.executable, "-m", "tests.standin_desk"] if self.is_standin else [program]
        self.begin()

    def begin(self) -> None:
        """Starts the desk."""
        words = [*self._words, "serve", str(self.office), "9999"]
        self._process = subprocess.Popen(words, cwd=TOOLS, stdout=subprocess.DEVNULL)
        wait_for_port(self.port, self._process)

    def kill(self) -> None:
        """Kills the desk; its office stays."""
        self._process.kill()
        self._process.wait()

    def end(self) -> None:
        """Ends the desk, and takes its office away."""
        self.kill()
        shutil.rmtree(self.office, ignore_errors=True)

    def set_day(self, day: int) -> None:
        """Says which day it is; only the stand-in asks."""
        (self.office / "day").write_text(str(day))

    def bytes_read(self) -> int:
        """How many bytes the desk has read until now, from files and connections."""
        for line in Path(f"/proc/{self._process.pid}/io").read_text().splitlines():
            if line.startswith("rchar: "):
                return int(line.removeprefix("rchar: "))
        raise AssertionError("the kernel does not tell what was read")

    def most_memory(self) -> int:
        """The most bytes of memory that the desk has held until now."""
        for line in Path(f"/proc/{self._process.pid}/status").read_text().splitlines():
            if line.startswith("VmHWM:"):
                return int(line.split()[1]) * 1024
        raise AssertionError("the kernel does not tell how much memory was held")

    def ask(self, who: str | None, method: str, path: str, body: str | None = None) -> tuple[int, str, bytes]:
        """Status, content type and body of the reply to a request."""
        connection = http.client.HTTPConnection("127.0.0.1", self.port, timeout=60)
        head = {} if who is None else {"x-desk-token": TOKENS.get(who, who)}
        connection.request(method, path, None if body is None else body.encode(), head)
        reply = connection.getresponse()
        try:
            return reply.status, reply.getheader("content-type", ""), reply.read()
        finally:
            connection.close()

    def done(self, who: str, method: str, path: str, body: str | None = None) -> bytes:
        """The body of a reply that says that something was done."""
        status, _, text = self.ask(who, method, path, body)
        assert status in (200, 201), (status, text)
        return text
