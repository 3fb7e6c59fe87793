"""A file that is there whole or not at all."""
from __future__ import annotations

import os
import tempfile
from pathlib import Path


def write_whole(path: Path, text: str) -> None:
    """Writes a text beside its place and then moves it there. Raises OSError; then nothing is left of it."""
    handle, beside = tempfile.mkstemp(prefix=".vet_", dir=path.parent)
    try:
        with os.fdopen(handle, "w", encoding="utf-8") as file:
            file.write(text)
        os.chmod(beside, 0o644)
        os.replace(beside, path)
    except BaseException:
        os.unlink(beside)
        raise
