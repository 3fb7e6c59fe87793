"""A desk for tests of the client that says what it is told to: on each connection it takes a request and gives a reply.

`Proxy` stands between a client and a desk at work, and loses what it is told to lose.
"""
from __future__ import annotations

import random
import re
import socket
import threading
from collections import Counter
from collections.abc import Callable

# A reply, as bytes; or what is done with a connection.
Reply = bytes | Callable[[socket.socket], None]


def reply(status: int, body: bytes = b"{}", *fields: str) -> bytes:
    """A reply as the desk writes it, with these fields besides."""
    lines = [f"HTTP/1.1 {status} Said", f"Content-Length: {len(body)}", *fields, "", ""]
    return "\r\n".join(lines).encode() + body


def taken(connection: socket.socket) -> bytes:
    """The request that comes on a connection: a head and as many bytes as it announces, or fewer where it ends."""
    got = bytearray()
    whole = None
    while whole is None or len(got) < whole:
        piece = connection.recv(1 << 20)
        if not piece:
            break
        got += piece
        if whole is None and (end := got.find(b"\r\n\r\n")) >= 0:
            length = re.search(rb"\r\ncontent-length: ([0-9]+)\r\n", got[:end + 2])
            assert length, bytes(got[:end])
            whole = end + 4 + int(length[1])
    return bytes(got)


def rash(said: bytes) -> Callable[[socket.socket], None]:
    """Says this before the request is taken."""
    def act(connection: socket.socket) -> None:
        connection.sendall(said)
        taken(connection)
    return act


class Listener:
    """Serves each connection to a free port of this machine by itself, until `end`."""

    def __init__(self) -> None:
        self._listener = socket.create_server(("127.0.0.1", 0), backlog=256)
        self.port: int = self._listener.getsockname()[1]
        threading.Thread(target=self._accept, daemon=True).start()

    def end(self) -> None:
        """Takes no more connections."""
        try:
            self._listener.shutdown(socket.SHUT_RDWR)
        finally:
            self._listener.close()

    def _accept(self) -> None:
        while True:
            try:
                connection, _ = self._listener.accept()
            except OSError:
                return
            self.came(connection)

    def came(self, connection: socket.socket) -> None:
        """What is done with a connection."""
        raise NotImplementedError


class FakeDesk(Listener):
    """Says these replies in turn, on a connection each, and closes without one behind the last."""

    def __init__(self, *replies: Reply) -> None:
        self._replies = list(replies)
        # The request on each connection to which bytes were said, there before they are.
        self.requests: list[bytes] = []
        super().__init__()

    def came(self, connection: socket.socket) -> None:
        with connection:
            said = self._replies.pop(0) if self._replies else b""
            if isinstance(said, bytes):
                self.requests.append(taken(connection))
                connection.sendall(said)
            else:
                said(connection)


class Proxy(Listener):
    """Hands requests on to a desk, and loses requests and replies at random.

    Of a lost request the desk gets a front or nothing; of a lost reply the client does. What becomes of the k-th
    request for a reference depends on the seed, the reference and k alone.
    """

    def __init__(self, port: int, seed: str) -> None:
        self._desk = port
        self._seed = seed
        self.tries: Counter[str] = Counter()
        # How often a request was cut, and how often a reply.
        self.lost: Counter[str] = Counter()
        super().__init__()

    def came(self, connection: socket.socket) -> None:
        threading.Thread(target=self._pass, args=(connection,), daemon=True).start()

    def _pass(self, client: socket.socket) -> None:
        with client:
            request = taken(client)
            reference = re.search(rb'"reference":"([^"]*)"', request)[1].decode()
            self.tries[reference] += 1
            drawn = random.Random(f"{self._seed} {reference} {self.tries[reference]}")
            fate = drawn.choice(("cut request", "cut reply", "whole", "whole"))
            self.lost[fate] += 1
            with socket.create_connection(("127.0.0.1", self._desk), timeout=60) as desk:
                desk.sendall(request[:drawn.randrange(len(request))] if fate == "cut request" else request)
                desk.shutdown(socket.SHUT_WR)
                said = b"".join(iter(lambda: desk.recv(1 << 16), b""))
            if fate != "cut request":
                client.sendall(said[:drawn.randrange(len(said))] if fate == "cut reply" else said)
