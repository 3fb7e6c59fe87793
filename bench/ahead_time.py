#!/usr/bin/env python3
"""How long a reviewer waits for a decision: at once behind the submission, after a pause, and at a desk of one worker.

usage: bench/ahead_time.py PROGRAM [CLASSES]

PROGRAM is the built program, as crates/vet/out/vet. The app is drawn with so many classes (bench/drawn_app.py, which
takes Debian's smali). Each desk runs in a copy of examples/office. A decision after a pause has to come at once where
the office has two workers, within 100 milliseconds; each report has to be the same; and a desk that ends while an app
is judged ahead has to end by itself with status 0 and `served 1`.
"""

import json
import re
import shutil
import subprocess
import sys
import tempfile
import time

from drawn_app import drawn
from killed_desk import OwnDesk, app_of

ANN, REX = "ann-may-submit-0001", "rex-may-decide-0003"


class Office(OwnDesk):
    """A desk by so many workers and the lists of the app."""

    def __init__(self, program, app_folder, workers):
        super().__init__(program)
        shutil.copy(f"{app_folder}/lists.toml", self.folder)
        with open(f"{self.folder}/office.toml") as f:
            text = re.sub("(?m)^workers = .*", f"workers = {workers}", f.read())
        with open(f"{self.folder}/office.toml", "w") as f:
            f.write(text)

    def submit(self, app, reference):
        status, said = self.desk.asked(ANN, "POST", "/cases", {**app, "reference": reference})
        assert status == 201, (status, said)

    def decided(self):
        """How long a decision took, in seconds, and what it said behind the name of the case."""
        begin = time.monotonic()
        status, said = self.desk.asked(REX, "POST", "/decisions")
        assert status == 200, (status, said)
        told = json.loads(said)
        return time.monotonic() - begin, {key: value for key, value in told.items() if key != "reference"}


def waits(program, folder, workers, pause):
    """How long a decision takes behind a submission and a pause."""
    with Office(program, folder, workers) as office:
        office.desk.start()
        office.submit(app_of(folder), "r1")
        time.sleep(pause)
        return office.decided()


def ends(program, folder):
    """How long a desk of two workers that takes one submission alone runs behind its reply."""
    with Office(program, folder, 2) as office:
        office.desk.words[-1] = "1"
        office.desk.process = subprocess.Popen(office.desk.words, stdout=subprocess.PIPE, text=True)
        office.submit(app_of(folder), "r1")
        begin = time.monotonic()
        said, _ = office.desk.process.communicate(timeout=600)
        assert (office.desk.process.returncode, said) == (0, "served 1\n"), said
        return time.monotonic() - begin


def main():
    program, classes = sys.argv[1], int(sys.argv[2]) if len(sys.argv) > 2 else 60
    folder = tempfile.mkdtemp()
    try:
        drawn(folder, 7, classes)
        alone, found = waits(program, folder, 1, 0)
        print(f"one worker, at once: {1000 * alone:.0f} ms")
        later, same = waits(program, folder, 1, 2 * alone + 0.5)
        print(f"one worker, after a pause: {1000 * later:.0f} ms")
        assert same == found
        at_once, same = waits(program, folder, 2, 0)
        print(f"two workers, at once: {1000 * at_once:.0f} ms")
        assert same == found
        ahead, same = waits(program, folder, 2, 2 * alone + 0.5)
        print(f"two workers, after a pause: {1000 * ahead:.1f} ms")
        assert same == found
        assert ahead < 0.1, ahead
        print(f"a desk that ends while an app is judged ahead: {1000 * ends(program, folder):.0f} ms behind its reply")
    finally:
        shutil.rmtree(folder)


if __name__ == "__main__":
    main()
