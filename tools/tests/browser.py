"""Chromium without a window, driven by its own protocol over a pair of pipes: pages are read and keys are pressed."""

from __future__ import annotations

import base64
import fcntl
import json
import os
import shutil
import subprocess
import tempfile
import time
from pathlib import Path
from typing import Any

KEYS = {"Tab": 9, "Enter": 13, "Space": 32}


def _high_pipe() -> tuple[int, int]:
    """A pipe whose descriptors are none that the shell below gives a meaning to."""
    high = [(fcntl.fcntl(end, fcntl.F_DUPFD_CLOEXEC, 20), os.close(end))[0] for end in os.pipe()]
    return high[0], high[1]


class Browser:
    """One Chromium with one page."""

    def __init__(self) -> None:
        self._profile = tempfile.mkdtemp(prefix="chromium-")
        ours_read, theirs_write = _high_pipe()
        theirs_read, ours_write = _high_pipe()
        words = ["chromium", "--headless", "--no-sandbox", "--disable-gpu", "--no-first-run", "--disable-extensions",
                 "--disable-background-networking", f"--user-data-dir={self._profile}", "--remote-debugging-pipe"]
        # The protocol is spoken over the descriptors 3 and 4.
        shell = f'exec 3<&{theirs_read} 4>&{theirs_write} {theirs_read}<&- {theirs_write}>&-; exec "$@"'
        self._process = subprocess.Popen(
            ["bash", "-c", shell, "bash", *words], pass_fds=(theirs_read, theirs_write), stdin=subprocess.DEVNULL,
            stdout=subprocess.DEVNULL, stderr=subprocess.DEVNULL)
        os.close(theirs_read)
        os.close(theirs_write)
        self._read, self._write = os.fdopen(ours_read, "rb", 0), os.fdopen(ours_write, "wb", 0)
        self._rest, self._count, self._session = b"", 0, ""
        target = self._call("Target.createTarget", url="about:blank")["targetId"]
        self._session = self._call("Target.attachToTarget", targetId=target, flatten=True)["sessionId"]
        self._call("Page.enable")

    def end(self) -> None:
        """Ends it."""
        self._process.terminate()
        self._process.wait(20)
        self._read.close()
        self._write.close()
        for _ in range(50):  # Its helpers write for a moment still.
            shutil.rmtree(self._profile, ignore_errors=True)
            if not os.path.exists(self._profile):
                break
            time.sleep(0.1)

    def _message(self) -> dict[str, Any]:
        while b"\0" not in self._rest:
            part = self._read.read(1 << 20)
            if not part:
                raise AssertionError("chromium ended")
            self._rest += part
        message, self._rest = self._rest.split(b"\0", 1)
        return json.loads(message)

    def _call(self, method: str, **values: Any) -> dict[str, Any]:
        self._count += 1
        asked = {"id": self._count, "method": method, "params": values}
        if self._session:
            asked["sessionId"] = self._session
        self._write.write(json.dumps(asked).encode() + b"\0")
        while True:
            message = self._message()
            if message.get("id") == self._count:
                if "error" in message:
                    raise AssertionError(f"{method}: {message['error']}")
                return message["result"]

    def value(self, expression: str) -> Any:
        """What an expression of JavaScript is in the page."""
        return self._call("Runtime.evaluate", expression=expression, returnByValue=True)["result"].get("value")

    def _wait(self, condition: str) -> None:
        for _ in range(600):
            if self.value(f"document.readyState === 'complete' && ({condition})"):
                return
            time.sleep(0.05)
        raise AssertionError(f"in vain waited for: {condition}\n{self.text()}")

    def go(self, address: str) -> None:
        """Opens a page, and waits until it is there."""
        self._call("Page.navigate", url=address)
        self._wait("location.href !== 'about:blank'")

    def document(self) -> str:
        """The document as it is now."""
        return self.value("document.documentElement.outerHTML")

    def text(self) -> str:
        """The text that is seen, with single spaces."""
        return " ".join(self.value("document.body.innerText").split())

    def press(self, key: str) -> None:
        """Presses a key."""
        values = {"key": " " if key == "Space" else key, "code": key, "windowsVirtualKeyCode": KEYS[key]}
        if key == "Enter":
            values["text"] = "\r"
        self._call("Input.dispatchKeyEvent", type="keyDown", **values)
        self._call("Input.dispatchKeyEvent", type="keyUp", **values)

    def tab_to(self, label: str) -> list[str]:
        """Presses Tab until what has the focus has this label; the labels by the way."""
        labels = []
        for _ in range(60):
            self.press("Tab")
            labels.append(self.value("(document.activeElement.innerText || document.activeElement.id).trim()"))
            if labels[-1] == label:
                return labels
        raise AssertionError(f"no way by Tab to {label}: {labels}")

    def enter(self, words: str) -> None:
        """Presses Enter, and waits until a page with these words is there."""
        self.press("Enter")
        self._wait(f"document.body.innerText.includes({json.dumps(words)})")

    def take_picture(self, file: Path, width: int = 1200, media: str = "screen") -> None:
        """A picture of the whole page, as on a screen or in print."""
        self._call("Emulation.setEmulatedMedia", media=media)
        self._call("Emulation.setDeviceMetricsOverride", width=width, height=900, deviceScaleFactor=1, mobile=False)
        data = self._call("Page.captureScreenshot", captureBeyondViewport=True)["data"]
        file.write_bytes(base64.b64decode(data))
        self._call("Emulation.setEmulatedMedia", media="")
        self._call("Emulation.clearDeviceMetricsOverride")

    def shown_in_print(self, selector: str) -> bool:
        """Whether something of this selector is seen in print."""
        self._call("Emulation.setEmulatedMedia", media="print")
        seen = self.value(f"[...document.querySelectorAll({json.dumps(selector)})].some(e => e.checkVisibility())")
        self._call("Emulation.setEmulatedMedia", media="")
        return seen
