"""nginx with the site of deploy/, on a free port of this machine, before a desk; for tests."""

from __future__ import annotations

import http.client
import os
import shutil
import ssl
import subprocess
import tempfile
import time
from pathlib import Path

from tests.desk_at_work import TOKENS, TOP, free_port

SITE = TOP / "deploy/nginx-site.conf"


class NginxAtWork:
    """One nginx in a folder of its own, with a certificate that was made for it."""

    def __init__(self, desk_port: int, *changes: tuple[str, str]) -> None:
        self.folder = Path(tempfile.mkdtemp(prefix="nginx-"))
        self.port = free_port()
        self._make_certificate()
        site = SITE.read_text()
        own = (("/etc/ssl/", f"{self.folder}/"), ("/var/log/nginx/", f"{self.folder}/"),
               ("listen 443", f"listen 127.0.0.1:{self.port}"), ("127.0.0.1:8650", f"127.0.0.1:{desk_port}"))
        for old, new in (*own, *changes):
            assert old in site, old
            site = site.replace(old, new)
        (self.folder / "site.conf").write_text(site)
        paths = "".join(f"{name}_temp_path {self.folder}/{name};" for name in
                        ("client_body", "proxy", "fastcgi", "uwsgi", "scgi"))
        user = "user root;" if os.getuid() == 0 else ""
        self.form = self.folder / "nginx.conf"
        self.form.write_text(
            f"{user} daemon off; worker_processes 1; pid {self.folder}/pid; error_log {self.folder}/main.log;"
            f" events {{}} http {{ access_log off; {paths} include {self.folder}/site.conf; }}"
        )
        self._process: subprocess.Popen[bytes] | None = None

    def _make_certificate(self) -> None:
        subprocess.run(
            ["openssl", "req", "-x509", "-newkey", "ec", "-pkeyopt", "ec_paramgen_curve:P-256", "-nodes", "-days", "2",
             "-subj", "/CN=desk.example", "-addext", "subjectAltName=DNS:desk.example,IP:127.0.0.1",
             "-keyout", f"{self.folder}/desk.key", "-out", f"{self.folder}/desk.pem"],
            check=True, capture_output=True,
        )

    def test(self) -> subprocess.CompletedProcess[str]:
        """What `nginx -t` says of the site."""
        return subprocess.run(["nginx", "-t", "-c", str(self.form)], capture_output=True, text=True)

    def begin(self) -> None:
        """Starts it, and waits until it listens."""
        self._process = subprocess.Popen(["nginx", "-c", str(self.form)], stderr=subprocess.DEVNULL)
        place = f"0100007F:{self.port:04X} 00000000:0000 0A"
        for _ in range(400):
            if place in Path("/proc/net/tcp").read_text():
                return
            assert self._process.poll() is None, "nginx ended"
            time.sleep(0.05)
        raise AssertionError("nginx did not begin to listen")

    def end(self) -> None:
        """Ends it, and takes its folder away."""
        if self._process is not None:
            self._process.terminate()
            self._process.wait(20)
        shutil.rmtree(self.folder, ignore_errors=True)

    def connection(self, **limits: ssl.TLSVersion) -> http.client.HTTPSConnection:
        """A connection by TLS that trusts nginx's certificate alone."""
        context = ssl.create_default_context(cafile=str(self.folder / "desk.pem"))
        for name, version in limits.items():
            setattr(context, name, version)
        return http.client.HTTPSConnection("127.0.0.1", self.port, timeout=60, context=context)

    def ask(self, who: str | None, method: str, path: str, body: object = None) -> tuple[int, str, bytes]:
        """Status, content type and body of the reply to a request."""
        connection = self.connection()
        head = {} if who is None else {"x-desk-token": TOKENS.get(who, who)}
        connection.request(method, path, body.encode() if isinstance(body, str) else body, head)
        reply = connection.getresponse()
        try:
            return reply.status, reply.getheader("content-type", ""), reply.read()
        finally:
            connection.close()

    def logs(self, part: str, count: int) -> str:
        """All that it wrote into its logs, once this part stands in them so often: it writes after it has replied."""
        for _ in range(400):
            text = "".join(file.read_text() for file in sorted(self.folder.glob("*.log")))
            if text.count(part) >= count:
                return text
            time.sleep(0.05)
        raise AssertionError(f"in vain waited for {part!r} in the logs: {text}")
