"""The answers of `vet`: to the files of cases, to DEX files that are cut at each byte, and to generated apps."""
from __future__ import annotations

import tempfile
import unittest
from concurrent.futures import Future
from dataclasses import dataclass
from pathlib import Path

from tests.program import answer, at_once, begun
from tests.support import DATA

ANSWERS = DATA / "answers"
# The folder of the sample, whose app posts the device id: its files, and where they lie.
SAMPLE = {name: name for name in ("manifest.toml", "layouts.toml", "declaration.toml", "lists.toml")}
SAMPLE["classes.dex"] = "device_id_posted.dex"
FEW_LISTS = b'rows = 1\ncategories = ["a"]\n'
COUNTS = {"link_cases.txt": 26, "cases.txt": 49, "flow_cases.txt": 63, "example_cases.txt": 27, "opcode_cases.txt": 6}
# Seed and size of generated apps; and the rows and findings that a program which was made apart from this one told.
MADE = {(7, 50): (3_315, 39), (1, 1): (112, 1)}


@dataclass(frozen=True)
class Case:
    """What differs from the sample, None for a file that is absent, and the answer that is due."""
    title: str
    changes: dict[str, bytes | None]
    due: str


def case_of(text: str) -> Case:
    """A case: its title, and behind it parts, each behind a line `> HEAD`.

    The head `answer` comes before the status and the text that are due, `NAME` before the text of that file of the
    folder; `NAME = FILE` gives it the bytes of a file that lies beside the cases, and `NAME = -` says it is absent.
    """
    first, *parts = text.split("\n> ")
    changes: dict[str, bytes | None] = {}
    due = ""
    for part in parts:
        head, _, body = part.partition("\n")
        name, _, file = head.partition(" = ")
        if name == "answer":
            due = body.rstrip() + "\n"
        elif file == "-":
            changes[name] = None
        else:
            changes[name] = (ANSWERS / file).read_bytes() if file else body.encode()
    return Case(first.partition("\n")[0], changes, due)


def cases_of(name: str) -> list[Case]:
    """The cases of a file, which stand each behind a line `## TITLE`."""
    return [case_of(text) for text in (ANSWERS / name).read_bytes().decode().split("\n## ")[1:]]


def found_with(changes: dict[str, bytes | None]) -> str:
    """Status and text for the folder `D` of the sample with these changes."""
    with tempfile.TemporaryDirectory(prefix="vet-answers-") as held:
        folder = Path(held) / "D"
        folder.mkdir()
        sample = {name: (ANSWERS / file).read_bytes() for name, file in SAMPLE.items()}
        for name, content in {**sample, **changes}.items():
            if content is not None:
                (folder / name).write_bytes(content)
        status, text = answer(Path(held), "check", "D", "1")
    return f"{status}\n{text}"


class CasesTest(unittest.TestCase):
    """The files of cases and the generated apps. Their runs are begun at once."""
    made: dict[tuple[int, int], Future[tuple[int, str]]]
    cases: dict[str, list[tuple[Case, Future[str]]]]

    @classmethod
    def setUpClass(cls) -> None:
        cls.made = {(seed, size): begun(answer, ANSWERS, "make", str(seed), str(size), "1") for seed, size in MADE}
        cls.cases = {name: [(case, begun(found_with, case.changes)) for case in cases_of(name)] for name in COUNTS}

    def check(self, name: str) -> None:
        """Each case of a file is answered as is due."""
        self.assertEqual(COUNTS[name], len(self.cases[name]))
        for case, found in self.cases[name]:
            with self.subTest(name, title=case.title):
                self.assertEqual(case.due, found.result())

    def test_forms_and_files(self) -> None:
        self.check("cases.txt")

    def test_the_link(self) -> None:
        self.check("link_cases.txt")

    def test_the_flow(self) -> None:
        self.check("flow_cases.txt")

    def test_the_examples(self) -> None:
        self.check("example_cases.txt")

    def test_every_opcode_that_carries_a_value(self) -> None:
        self.check("opcode_cases.txt")

    def test_summaries_of_generated_apps(self) -> None:
        for (seed, size), (rows, findings) in MADE.items():
            with self.subTest(seed=seed, size=size):
                text = f"methods {size + 1}\nrows {rows}\nfindings {findings}\nflagged\n"
                self.assertEqual((1, text), self.made[seed, size].result())


class RefusedTest(unittest.TestCase):

    def test_a_dex_file_cut_at_each_byte_is_refused(self) -> None:
        whole = (ANSWERS / "device_id_posted.dex").read_bytes()
        self.assertEqual(656, len(whole))

        def found(cut: int) -> str:
            return found_with({"lists.toml": FEW_LISTS, "classes.dex": whole[:cut]})

        for cut, told in enumerate(at_once(found, range(len(whole)))):
            reason = "magic" if cut < 8 else "outside at 0" if cut < 112 else "header file_size"
            with self.subTest(cut=cut):
                self.assertEqual(f"3\nrefused classes.dex: {reason}\n", told)

    def test_an_offset_that_the_header_has_too_many_strings_for_is_outside(self) -> None:
        whole = (ANSWERS / "device_id_posted.dex").read_bytes()
        at = int.from_bytes(whole[60:64], "little")
        changed = whole[:56] + b"\xff" * 4 + whole[60:]
        self.assertEqual(f"3\nrefused classes.dex: outside at {at}\n", found_with({"classes.dex": changed}))

    def test_one_component_more_than_the_limit_is_refused(self) -> None:
        text = 'package = "a"\ndex_files = 1\n'
        text += "".join(f'[[component]]\nkind = "activity"\nclass = "L{number};"\n' for number in range(4_097))
        self.assertEqual("3\nrefused manifest.toml: range component\n", found_with({"manifest.toml": text.encode()}))


class ProgramTest(unittest.TestCase):

    def test_folders_as_they_lie_here(self) -> None:
        sent = "device_id -> network at La/Sender;->send(Ljava/lang/Object;)V @0\n"
        for name, due in [("clear", (0, "clear\n")), ("two_files", (1, f"flagged 1\n{sent}")),
                          ("without_layouts", (3, "refused layouts.toml: absent\n"))]:
            with self.subTest(name):
                self.assertEqual(due, answer(ANSWERS, "check", name, "1"))

    def test_no_words_are_no_command(self) -> None:
        self.assertEqual((4, "unknown command or argument\n"), answer(ANSWERS))


if __name__ == "__main__":
    unittest.main()
