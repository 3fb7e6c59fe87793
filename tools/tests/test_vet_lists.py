"""The lists for Android are read by the program. Unproved it takes most of a minute for them."""
from __future__ import annotations

import shutil
import tempfile
import unittest
from pathlib import Path

from tests.program import answer
from tests.support import ROOT


class AndroidLists(unittest.TestCase):

    def test_they_have_no_fault_before_that_of_an_empty_dex_file(self) -> None:
        with tempfile.TemporaryDirectory(prefix="vet-lists-") as made:
            folder = Path(made)
            (folder / "manifest.toml").write_text('package = "a"\ndex_files = 1\n')
            for name in ("layouts.toml", "declaration.toml", "classes.dex"):
                (folder / name).touch()
            shutil.copy(ROOT / "lists" / "android.toml", folder / "lists.toml")
            self.assertEqual((3, "refused classes.dex: magic\n"), answer(folder, "check", ".", "1"))


if __name__ == "__main__":
    unittest.main()
