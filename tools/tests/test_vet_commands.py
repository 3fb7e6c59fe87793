"""The words of the program, its files and its output: what docs/FORMATS.md says of the statuses 3 to 7 and 9."""
from __future__ import annotations

import os
import shutil
import socket
import subprocess
import tempfile
import unittest
from pathlib import Path

from tests.program import CHECKED, answer, at_once, program
from tests.support import EXAMPLES

USAGE = (4, "unknown command or argument\n")
LIMIT = 16_777_216
# The files of an app with one DEX file, in the order in which they are read; all are empty but the manifest.
FILES = ("manifest.toml", "layouts.toml", "declaration.toml", "lists.toml", "classes.dex")
MANIFEST = 'package = "a"\ndex_files = 1\n'
# What is due to that app.
REFUSED = (3, "refused lists.toml: missing rows\n")
# Lines of words that are no command, each word behind a space; `_` is an empty one.
NO_COMMANDS = ("", "check D", "check D 1 1", "_ D 1", "Check D 1", "check D 0", "check D 01", "check D 17",
               "check D 1\t", "check D +1", "check D _", "check _ 1", "certify D", "certify D _", "certify _ C",
               "certify D C 1", "recheck D", "recheck D _", "recheck _ C", "story", "story _", "story D 1", "make 1 1", "make 1 0 1", "make 1 2001 1",
               "make 2147483648 1 1", "make 1 1 0", "make 1 1 17", "make 01 1 1", "make 1 1 1 1")


def words_of(line: str) -> list[str]:
    """The words of a line; a tab in a word stands for a space."""
    return ["" if word == "_" else word.replace("\t", " ") for word in line.split(" ") if word]


class FolderCase(unittest.TestCase):
    """A test with the folder `D` of that app, and an empty folder `k`."""

    def setUp(self) -> None:
        self.top = Path(tempfile.mkdtemp(prefix="vet-commands-"))
        self.addCleanup(shutil.rmtree, self.top)
        self.app = self.app_at("D")
        (self.top / "k").mkdir()

    def app_at(self, name: str) -> Path:
        """The folder of that app under this name."""
        folder = self.top / name
        folder.mkdir()
        for file in FILES:
            (folder / file).write_text(MANIFEST if file == "manifest.toml" else "")
        return folder

    def answer(self, *words: str) -> tuple[int, str]:
        """The answer to these words beside the folders."""
        return answer(self.top, *words)


class Words(FolderCase):
    def test_words_that_are_no_command(self) -> None:
        for line in NO_COMMANDS:
            with self.subTest(line):
                self.assertEqual(self.answer(*words_of(line)), USAGE)
        self.assertEqual(sorted(it.name for it in self.top.iterdir()), ["D", "k"])

    def test_the_words_of_a_desk_ask_a_program_that_has_none_for_nothing(self) -> None:
        # The proved program has a desk, and the unproved one that these tests run has none.
        asked = USAGE if program().name == "unproved" else (3, "refused office.toml: absent\n")
        self.assertEqual(self.answer("serve", "D", "1"), asked)

    def test_a_folder_has_a_name_of_1024_bytes_at_most(self) -> None:
        self.assertEqual(self.answer("check", "D".ljust(1024, "/"), "16"), REFUSED)
        self.assertEqual(self.answer("check", "D".ljust(1025, "/"), "16"), USAGE)

    def test_a_word_that_is_no_text_is_no_command(self) -> None:
        self.assertEqual(self.answer("check", os.fsdecode(b"D"), "1"), REFUSED)
        (self.top / os.fsdecode(b"D\xff")).symlink_to(self.app)
        self.assertEqual(self.answer("check", os.fsdecode(b"D\xff"), "1"), USAGE)

    def test_want_of_memory_for_the_words_is_told_by_the_status_alone(self) -> None:
        if program().name != "unproved":
            self.skipTest("only the unproved program can be made to be refused memory")
        # The table of so many words has more than a mebibyte.
        many = ["a"] * 45_000
        self.assertEqual(self.answer(*many), USAGE)
        scarce = {**CHECKED, "ASAN_OPTIONS": "exitcode=86:allocator_may_return_null=1:max_allocation_size_mb=1"}
        done = subprocess.run([program(), *many], env=scarce, capture_output=True, check=False)
        self.assertEqual((done.returncode, done.stdout), (7, b""))


class FilesOfTheSystem(FolderCase):
    def test_a_file_that_is_absent_is_refused(self) -> None:
        for name in FILES:
            app = self.app_at(name)
            (app / name).unlink()
            self.assertEqual(self.answer("check", app.name, "1"), (3, f"refused {name}: absent\n"))

    def test_a_path_through_a_file_is_absent(self) -> None:
        self.assertEqual(self.answer("check", "D/manifest.toml", "1"), (3, "refused manifest.toml: absent\n"))

    def test_a_file_of_16777216_bytes_is_read_and_a_longer_one_is_refused(self) -> None:
        (self.app / "lists.toml").write_text('rows = 1\ncategories = ["a"]\n')
        os.truncate(self.app / "classes.dex", LIMIT)
        due = {"D": "classes.dex: magic"}
        for name in FILES:
            os.truncate(self.app_at(name) / name, LIMIT + 1)
            due[name] = f"{name}: longer than {LIMIT}"
        found = at_once(lambda name: self.answer("check", name, "1"), due)
        self.assertEqual(found, [(3, f"refused {reason}\n") for reason in due.values()])

    def test_a_file_that_cannot_be_read_is_told_by_its_path(self) -> None:
        for name in FILES:
            app = self.app_at(name)
            (app / name).unlink()
            (app / name).mkdir()
            self.assertEqual(self.answer("check", name, "1"), (5, f"read fault {name}/{name}\n"))


class Output(FolderCase):
    def to_full_disk(self, *words: str) -> int:
        """The status of a run whose output takes nothing."""
        with open("/dev/full", "wb") as full:
            return subprocess.run([program(), *words], stdout=full, check=False, cwd=self.top,
                                  env=CHECKED).returncode

    def test_an_answer_that_cannot_be_printed_is_none(self) -> None:
        self.assertEqual(self.to_full_disk("check", "D", "1"), 6)

    def test_a_read_fault_that_cannot_be_printed_is_none(self) -> None:
        (self.app / "layouts.toml").unlink()
        (self.app / "layouts.toml").mkdir()
        self.assertEqual(self.answer("check", "D", "1")[0], 5)
        self.assertEqual(self.to_full_disk("check", "D", "1"), 6)

    def puts(self, *words: str) -> tuple[int, list[bytes]]:
        """The status of a run, and what each of its writes to the output had: the socket keeps them apart."""
        ours, theirs = socket.socketpair(socket.AF_UNIX, socket.SOCK_SEQPACKET)
        with ours:
            with theirs:
                done = subprocess.run([program(), *words], stdout=theirs, check=False, cwd=self.top, env=CHECKED)
            return done.returncode, list(iter(lambda: ours.recv(1 << 16), b""))

    def test_each_text_is_printed_in_one_put(self) -> None:
        self.assertEqual(self.puts(), (4, [b"unknown command or argument\n"]))
        self.assertEqual(self.puts("check", str(EXAMPLES / "declared"), "1"), (0, [b"clear\n"]))
        (self.app / "lists.toml").unlink()
        self.assertEqual(self.puts("check", "D", "1"), (3, [b"refused lists.toml: absent\n"]))
        (self.app / "layouts.toml").unlink()
        (self.app / "layouts.toml").mkdir()
        self.assertEqual(self.puts("check", "D", "1"), (5, [b"read fault D/layouts.toml\n"]))


class Certificates(FolderCase):
    def test_a_refused_app_gets_none(self) -> None:
        self.assertEqual(self.answer("certify", "D", "k/C"), REFUSED)
        self.assertEqual((os.listdir(self.top / "k"), sorted(os.listdir(self.app))), ([], sorted(FILES)))

    def test_it_is_read_before_the_app_is_judged(self) -> None:
        self.assertEqual(self.answer("recheck", "D", "k/C"), (3, "refused C: absent\n"))
        (self.top / "k" / "C").touch()
        self.assertEqual(self.answer("recheck", "D", "k/C"), (9, "certificate refused: magic\n"))
        (self.top / "k" / "C").unlink()
        (self.top / "k" / "C").mkdir()
        self.assertEqual(self.answer("recheck", "D", "k/C"), (5, "read fault k/C\n"))

    def test_what_is_written_is_read_again_and_a_folder_is_not_written(self) -> None:
        app = str(EXAMPLES / "declared")
        self.assertEqual(self.answer("certify", app, "k/C"), (0, "clear\n"))
        self.assertEqual(self.answer("recheck", app, "k/C"), (0, "clear\n"))
        self.assertEqual(self.answer("certify", app, "k"), (6, ""))


if __name__ == "__main__":
    unittest.main()
