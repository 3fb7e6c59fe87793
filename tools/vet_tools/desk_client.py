"""What a reviewer asks of the desk, by its own routes. The token goes into the request's head and nowhere else."""

from __future__ import annotations

import http.client
import json
from dataclasses import dataclass

# The desk takes one connection at a time, and judging an app of many methods takes minutes.
PATIENCE = 3600.0
BODY_LIMIT = 1 << 20

# What a reviewer does where nothing was done, by the desk's word for why.
ADVICE = {
    "no such token": "Ask who runs the desk for a token, and start again with it.",
    "wrong role": "This token is a developer's. Start again with a reviewer's.",
    "same reviewer": "Whoever made the decision cannot rule on it: let another reviewer rule.",
    "no such case": "The desk does not have this case. Is it the desk of this office?",
    "nothing queued": "Every case is decided.",
    "not decided": "The case waits for its first decision.",
    "decided under these lists": "The case was judged under these lists already. Wait for new lists.",
    "appeal open": "A ruling on the appeal is due first.",
    "ruled already": "Somebody ruled on this appeal already.",
    "no appeal": "There is no appeal to rule on.",
    "store failed": "The desk could not open or write its database. Does another program have it open? See whether the "
    "command was carried out all the same, as it may be where the disk failed last of all, and then ask again.",
    "no memory": "The desk ran out of memory. Ask again.",
}


@dataclass(frozen=True)
class Told:
    """What came of a command: whether it was done, and one sentence or two on it."""

    done: bool
    text: str
    # The developer and the reference of the case that the reply names, where it names one.
    case: tuple[str, str] | None = None


def _sentence(status: int, body: bytes) -> Told:
    try:
        reply = json.loads(body)
        assert isinstance(reply, dict)
    except (ValueError, AssertionError):
        return Told(False, f"What answers there is no desk (status {status}): look at the port.")
    case = (str(reply.get("developer")), str(reply.get("reference")))
    if status == 200 and "outcome" in reply:
        return Told(True, f"Decided: {case[0]} / {case[1]} is {reply['outcome']}.", case)
    if status == 200 and "ruling" in reply:
        return Told(True, f"Ruled on {case[0]} / {case[1]}: {reply['ruling']}.", case)
    if status == 200:
        return Told(True, "Done.")
    error = str(reply.get("error", ""))
    return Told(False, f"Nothing was done: {error} ({status}). {ADVICE.get(error, '')}".rstrip())


@dataclass(frozen=True)
class Desk:
    """A desk on this machine, and the token by which it is asked."""

    port: int
    token: str

    def _post(self, route: str, body: bytes) -> Told:
        connection = http.client.HTTPConnection("127.0.0.1", self.port, timeout=PATIENCE)
        try:
            connection.connect()
        except OSError:
            return Told(False, f"No desk listens on port {self.port}: nothing was sent. Start it, and ask again.")
        try:
            head = {"x-desk-token": self.token, "content-type": "application/json"}
            connection.request("POST", route, body, head)
            reply = connection.getresponse()
            return _sentence(reply.status, reply.read(BODY_LIMIT))
        except (OSError, http.client.HTTPException):
            return Told(False, "The desk did not reply. It may have done what was asked all the same: see the case.")
        finally:
            connection.close()

    def knows_token(self, patience: float) -> bool | None:
        """Whether the desk knows the token; None where it gave no reply within so many seconds."""
        connection = http.client.HTTPConnection("127.0.0.1", self.port, timeout=patience)
        try:
            connection.request("GET", "/cases", headers={"x-desk-token": self.token})
            return connection.getresponse().status != 401
        except (OSError, http.client.HTTPException):
            return None
        finally:
            connection.close()

    def decide(self) -> Told:
        """Has the first case in the queue judged."""
        return self._post("/decisions", b"")

    def review(self, developer: str, reference: str) -> Told:
        """Has a decided case judged again, under other lists."""
        return self._post("/reviews", json.dumps({"developer": developer, "reference": reference}).encode())

    def rule(self, developer: str, reference: str, ruling: str) -> Told:
        """Rules on the open appeal of a case: `uphold` or `overturn`."""
        body = {"developer": developer, "reference": reference, "ruling": ruling}
        return self._post("/rulings", json.dumps(body).encode())
