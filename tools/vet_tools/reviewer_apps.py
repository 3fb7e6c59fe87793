"""The app of a case as a folder that `vet check` reads: as a ZIP file, and as the page that `tools/page` makes."""

from __future__ import annotations

import subprocess
import tempfile
import zipfile
from collections.abc import Iterator
from pathlib import Path
from typing import BinaryIO

from vet_tools.desk_cases import Case, Cases
from vet_tools.desk_client import Told
from vet_tools.shown import visible

PATIENCE = 3600
SAID = 300


def files_of(case: Case, cases: Cases, lists: bytes | None) -> Iterator[tuple[str, bytes]]:
    """The files of the folder by their names, which are no names of the app's."""
    yield "manifest.toml", case.manifest
    yield "layouts.toml", case.layouts
    yield "declaration.toml", case.declaration
    if lists is not None:
        yield "lists.toml", lists
    for place, data in enumerate(cases.files(case.number)):
        yield ("classes.dex" if place == 0 else f"classes{place + 1}.dex"), data


def write_zip(file: BinaryIO, case: Case, cases: Cases, lists: bytes | None) -> None:
    """Writes the folder as a ZIP file."""
    with zipfile.ZipFile(file, "w", zipfile.ZIP_DEFLATED) as archive:
        for name, data in files_of(case, cases, lists):
            archive.writestr(f"case-{case.number}/{name}", data)


class AppPages:
    """The pages that `tools/page` made of apps in this run."""

    def __init__(self, program: Path, folder: Path) -> None:
        self._program, self._folder = program, folder

    @property
    def can_make(self) -> bool:
        """Whether there is a `tools/page`."""
        return self._program.is_file()

    def _file(self, number: int) -> Path:
        return self._folder / f"page-{number}.html"

    def page_of(self, number: int) -> bytes | None:
        """The page of a case's app, where it was made."""
        try:
            return self._file(number).read_bytes()
        except FileNotFoundError:
            return None

    def make(self, case: Case, files: list[tuple[str, bytes]]) -> Told:
        """Makes the page of a case's app out of the files of its folder."""
        with tempfile.TemporaryDirectory(dir=self._folder) as made:
            folder, page = Path(made) / f"case-{case.number}", Path(made) / "app.html"
            folder.mkdir()
            for name, data in files:
                (folder / name).write_bytes(data)
            words = [str(self._program), str(folder), "-o", str(page)]
            try:
                done = subprocess.run(words, capture_output=True, stdin=subprocess.DEVNULL, timeout=PATIENCE)
            except (OSError, subprocess.TimeoutExpired):
                return Told(False, "tools/page did not end: run it by hand over the app's folder.")
            if not page.is_file():
                said = visible(done.stderr[:SAID].strip())
                return Told(False, f"tools/page made no page (status {done.returncode}). It says: {said}")
            page.replace(self._file(case.number))
        return Told(True, "The app's page is made: see under App.")
