"""The command `tools/reviewer`: a desk for a reviewer, in the browser."""

from __future__ import annotations

import argparse
import getpass
import os
import secrets
import signal
import sys
import tempfile
from collections.abc import Iterator
from contextlib import contextmanager
from pathlib import Path

from vet_tools.command import Words
from vet_tools.desk_client import Desk
from vet_tools.office import Office, OfficeError, read_office
from vet_tools.reviewer_apps import AppPages
from vet_tools.reviewer_desk import Forms, Reviewing, Store
from vet_tools.reviewer_server import Server
from vet_tools.shown import visible

EXAMPLE = """\
example:
  tools/reviewer office
      asks for your token, and prints an address. Open it in a browser on this machine: it has the queue, the appeals
      and every case with its reports, and the buttons to decide, review and rule. The address is for you alone; a new
      one is made at each start. Ctrl-C ends it.

The token is asked for, or taken from the environment variable VET_TOKEN or from --token-file. It goes to the desk on
this machine and nowhere else. Whoever runs this has to be able to read OFFICE/desk.sqlite, which is the desk's user
(sudo -u vet tools/reviewer /var/lib/vet). Cases are read from a copy, in a folder that goes when this ends (TMPDIR says
where); what is done is asked of the desk, which is the one to say yes or no.

exit status: 0 when it was ended, 1 where it could not begin, 4 where these words are no command.
"""


class NoStart(Exception):
    """Why the reviewer's desk cannot begin, in one sentence that says what to do."""


def parser() -> argparse.ArgumentParser:
    """The words of the command line."""
    made = Words(
        prog="tools/reviewer", epilog=EXAMPLE, formatter_class=argparse.RawDescriptionHelpFormatter,
        description="A page on this machine for a reviewer: the queue, reports, appeals, rulings.",
    )
    made.add_argument("office", metavar="OFFICE", type=Path, help="the folder of the office, as `vet serve` has it")
    made.add_argument("--token-file", metavar="FILE", type=Path, help="a file whose first line is your token")
    made.add_argument("--port", metavar="N", type=int, help="the desk's port, where you may not read office.toml")
    made.add_argument("--listen", metavar="N", type=int, default=0, help="the port of the page (one that is free)")
    return made


def token_of(words: argparse.Namespace) -> str:
    """The reviewer's token. Raises NoStart where there is none."""
    if words.token_file is not None:
        try:
            token = (words.token_file.read_text(encoding="ascii").splitlines() or [""])[0].strip()
        except (OSError, UnicodeDecodeError):
            file = words.token_file
            raise NoStart(f"{file} could not be read: name a file whose first line is your token.") from None
    else:
        token = os.environ.pop("VET_TOKEN", "")
        if not token and sys.stdin.isatty():
            token = getpass.getpass("Your token: ")
    if not 8 <= len(token) <= 128 or not all("!" <= character <= "~" for character in token):
        raise NoStart("A token has 8 to 128 visible ASCII characters: give yours when asked, in VET_TOKEN or by"
                      " --token-file.")
    return token


def office_of(words: argparse.Namespace) -> Office:
    """The office. With --port its file need not be there. Raises OfficeError."""
    try:
        return read_office(words.office)
    except OfficeError:
        if words.port is None or not words.office.is_dir():
            raise
        return Office(words.office, words.port, None, (), ())


def who_of(office: Office, token: str) -> str:
    """The reviewer's name, where the office file tells it. Raises NoStart for a developer's token."""
    party = office.party_of(token)
    if party is not None and party.role != "reviewer":
        raise NoStart("This token is a developer's: take a reviewer's.")
    return party.name if party is not None else "a reviewer"


@contextmanager
def ended_by_signals() -> Iterator[None]:
    """Within it a signal ends the program with status 0, once all that was opened within is closed."""

    def end(*_: object) -> None:
        raise SystemExit(0)

    before = {number: signal.signal(number, end) for number in (signal.SIGTERM, signal.SIGINT, signal.SIGHUP)}
    try:
        yield
    finally:
        for number, handler in before.items():
            signal.signal(number, handler)


def run(words: argparse.Namespace) -> None:
    """Serves the pages. Raises NoStart or OfficeError where it cannot begin."""
    for port in (words.port, words.listen):
        if port is not None and not 0 <= port <= 65535:
            raise NoStart("A port is 1 to 65535.")
    office, token = office_of(words), token_of(words)
    if (office.folder / "desk.journal").exists():
        raise NoStart("The cases of this office are in desk.journal, and this page reads desk.sqlite alone: ask the desk "
                      "itself (docs/DESK.md).")
    who, desk = who_of(office, token), Desk(words.port or office.port, token)
    known = desk.knows_token(5.0)
    if known is False:
        raise NoStart("The desk knows no such token: ask who runs the desk.")
    if known is None:
        print(f"reviewer: the desk on port {desk.port} gives no reply now; cases are shown all the same",
              file=sys.stderr)
    os.umask(0o077)
    with ended_by_signals(), tempfile.TemporaryDirectory(prefix="reviewer-", ignore_cleanup_errors=True) as folder:
        store = Store(office.folder / "desk.sqlite", Path(folder))
        apps = AppPages(Path(__file__).resolve().parents[1] / "page", Path(folder))
        reviewing = Reviewing(office, desk, who, store, Forms(), apps, secrets.token_urlsafe(32))
        try:
            server = Server(words.listen, reviewing)
        except OSError:
            raise NoStart(f"Port {words.listen} cannot be had: give --listen another one, or none.") from None
        print(f"http://127.0.0.1:{server.server_port}{reviewing.root}", flush=True)
        if sys.stderr.isatty():
            print(f"reviewer: you are {visible(who)}; open this address in a browser; Ctrl-C ends it", file=sys.stderr)
        with server:
            server.serve_forever()


def main(arguments: list[str] | None = None) -> int:
    """Runs the command and gives its exit status."""
    words = parser().parse_args(arguments)
    try:
        run(words)
    except (NoStart, OfficeError) as error:
        print(f"reviewer: {visible(str(error))}", file=sys.stderr)
        return 1
    except KeyboardInterrupt:
        print(file=sys.stderr)
    return 0
