#!/usr/bin/env python3
"""What a desk reads for each request about a case with a large app.

usage: bench/desk_reads.py [MB [CASES]]

Starts the built program (crates/vet/out/vet, or the one that VET_DESK names) over a database that SQLite's own
library made: CASES decided cases (100) of which each has a DEX file of so many megabytes (1), and one with 48. Prints
how many bytes the desk has read for its first request, and for each request about the large case, with the time that
it took and the most memory that the desk has held until then. Ends with status 1 where one that needs no content has
read more than 300,000.
"""

import json
import os
import sqlite3
import sys
import time
from contextlib import closing

TOP = os.path.dirname(os.path.dirname(os.path.abspath(__file__)))
sys.path.insert(0, os.path.join(TOP, "tools"))

from tests.desk_at_work import DeskAtWork  # noqa: E402

MOST = 300_000


def fill(path, size, count):
    today = int(time.time() // 86400)
    with closing(sqlite3.connect(path, isolation_level=None)) as base:
        with open(os.path.join(TOP, "crates/desk_cases/data/version_2.sql"), encoding="utf-8") as text:
            base.executescript(text.read())
        base.execute("BEGIN")
        for number in range(100, 100 + count):
            base.execute("INSERT INTO cases VALUES (?, 'ann', ?, x'00', x'', x'')", (number, f"c{number}"))
            base.execute("INSERT INTO dex VALUES (?, 0, zeroblob(?))", (number, size * 1_000_000))
            base.execute("INSERT INTO entries VALUES (?, 0, 'flagged', x'00', zeroblob(32), 'rex', ?)", (number, today))
        base.execute("UPDATE dex SET bytes = zeroblob(48000000) WHERE place = 0 AND number = 1")
        base.execute("UPDATE entries SET day = ? WHERE number = 1", (today,))
        base.execute("COMMIT")


def main():
    size = int(sys.argv[1]) if len(sys.argv) > 1 else 1
    count = int(sys.argv[2]) if len(sys.argv) > 2 else 100
    desk = DeskAtWork()
    if desk.is_standin:
        desk.end()
        sys.exit("no program is built")
    desk.kill()
    fill(desk.office / "desk.sqlite", size, count)
    desk.begin()
    asked = [
        ("first", "ann", "GET", "/cases/r0", None), ("list", "ann", "GET", "/cases", None),
        ("appeals", "rex", "GET", "/cases", None), ("show", "ann", "GET", "/cases/r2", None),
        ("report", "ann", "GET", "/cases/r2/report", None),
        ("appeal", "ann", "POST", "/cases/r2/appeal", {"text": "not so"}),
        ("ruling", "sue", "POST", "/rulings", {"developer": "ann", "reference": "r2", "ruling": "uphold"}),
        ("review", "rex", "POST", "/reviews", {"developer": "ann", "reference": "r2"}),
    ]
    worst = 0
    try:
        for name, who, method, path, body in asked:
            before, begun = desk.bytes_read(), time.monotonic()
            status, _, _ = desk.ask(who, method, path, None if body is None else json.dumps(body))
            read = desk.bytes_read() - before
            took, held = 1000 * (time.monotonic() - begun), desk.most_memory() // 1_000_000
            print(f"{name:8} {status} {read:>12,} bytes {took:8.1f} ms {held:5} MB held")
            if name not in ("first", "review"):
                worst = max(worst, read)
    finally:
        desk.end()
    sys.exit(0 if worst <= MOST else 1)


main()
