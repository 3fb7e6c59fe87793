"""`tools/setup` installs what is asked for and nothing else; Debian's commands are stand-ins that note their words."""
from __future__ import annotations

import os
import shutil
import subprocess
import unittest

from tests.support import TOOLS, FolderCase

APT = """#!/bin/sh
echo "$*" >> "$(dirname "$0")/asked"
exit "$(cat "$(dirname "$0")/apt_status")"
"""
# The last word is the package.
DPKG = """#!/bin/sh
for name; do :; done
grep -qx "$name" "$(dirname "$0")/has" && printf installed
"""


class Setup(FolderCase):
    def setUp(self) -> None:
        super().setUp()
        for name, text in (("apt-get", APT), ("dpkg-query", DPKG), ("id", "#!/bin/sh\necho 0\n")):
            self.command(name, text)
        for name in ("bash", "cat", "dirname", "grep", "sed", "sh"):
            (self.folder / name).symlink_to(shutil.which(name) or name)
        (self.folder / "apt_status").write_text("0")
        (self.folder / "has").write_text("")

    def command(self, name: str, text: str) -> None:
        """Puts a stand-in for a command there."""
        (self.folder / name).write_text(text)
        (self.folder / name).chmod(0o755)

    def run_setup(self, *words: str) -> subprocess.CompletedProcess[str]:
        """Runs `tools/setup` where there are the stand-ins, and of the system's commands those that it uses."""
        return subprocess.run([str(TOOLS / "setup"), *words], capture_output=True, text=True, check=False,
                              env={**os.environ, "PATH": str(self.folder)})

    def asked(self) -> list[str]:
        """What `apt-get` was asked for."""
        file = self.folder / "asked"
        return file.read_text().splitlines() if file.exists() else []

    def test_the_tools_need_one_package_and_their_tests_more(self) -> None:
        self.assertEqual(self.run_setup().returncode, 0)
        self.assertEqual(self.asked(), ["update -q", "install -q -y --no-install-recommends androguard"])
        (self.folder / "has").write_text("androguard\ncurl\n")
        self.assertEqual(self.run_setup("--tests").returncode, 0)
        self.assertEqual(self.asked()[3], "install -q -y --no-install-recommends aapt dexdump python3-jsonschema "
                         "python3-sarif-python-om chromium nginx-light sqlite3 openssl systemd default-jdk-headless")

    def test_a_package_whose_command_is_there_is_not_installed(self) -> None:
        self.command("javap", "#!/bin/sh\n")
        self.assertEqual(self.run_setup("--tests").returncode, 0)
        self.assertIn(" systemd", self.asked()[1])
        self.assertNotIn("jdk", self.asked()[1])

    def test_where_all_is_there_nothing_is_installed(self) -> None:
        (self.folder / "has").write_text("androguard\n")
        done = self.run_setup()
        self.assertEqual((done.returncode, done.stdout), (0, "tools/setup: all that is needed is installed\n"))
        self.assertEqual(self.asked(), [])

    def test_other_words_install_nothing(self) -> None:
        for words, status, due in ((("--check",), 1, "missing: androguard aapt"),
                                   (("--help",), 0, "tools/setup --tests"), (("--test",), 4, "it takes no words but"),
                                   (("--tests", "x"), 4, "it takes no words but")):
            done = self.run_setup(*words)
            self.assertEqual((done.returncode, self.asked()), (status, []), words)
            self.assertIn(due, done.stdout + done.stderr)

    def test_what_cannot_be_installed_is_said(self) -> None:
        (self.folder / "apt_status").write_text("100")
        done = self.run_setup()
        self.assertEqual(done.returncode, 1)
        self.assertIn("could not install androguard", done.stderr)


if __name__ == "__main__":
    unittest.main()
