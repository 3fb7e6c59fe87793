"""Forms are read as docs/FORMATS.md says: texts of data/forms, each with the answer that is due, put to the program.

`vet check` reads the forms of an app one after the other, and then the DEX files. Beside the text that is tested stand
forms without a fault and empty DEX files, so a text that is accepted shows by the refusal of the first DEX file.
"""
from __future__ import annotations

import json
import tempfile
import unittest
from dataclasses import dataclass
from pathlib import Path

from tests.program import answer, at_once
from tests.support import DATA

FORMS = DATA / "forms"
# Forms without a fault.
FAULTLESS = {"manifest": 'package = "a"\ndex_files = 1\n', "layouts": "", "declaration": "",
             "lists": 'rows = 1\ncategories = ["a"]\n'}
# The form that each file has texts of, and how many.
FILES = {"declarations": ("declaration", 18), "layouts": ("layouts", 16), "manifests": ("manifest", 42),
         "lists": ("lists", 25), "classes": ("lists", 19), "methods": ("lists", 89), "signatures": ("lists", 22),
         "callbacks": ("lists", 17), "device": ("lists", 73), "large": ("lists", 32)}
# The answers to the greatest number of tables, each without a key.
ENDS = (("manifest", "component", "missing component.kind"), ("layouts", "layout", "missing layout.name"),
        ("declaration", "use", "missing use.source"))
# The lists of at most 4,096 names, each of which is another.
NAMES = (("manifest", "named"), ("lists", "platform"), ("lists", "bundled"))


@dataclass(frozen=True)
class Case:
    """A text of a form, where it stands, and the answer that is due: `ok` or the reason of the refusal."""
    form: str
    name: str
    text: bytes
    due: str


def cases_of(name: str, form: str) -> list[Case]:
    """The texts of a file, each behind a line `## ANSWER`; what stands before the first stands before each text."""
    head, *blocks = (FORMS / f"{name}.txt").read_text().split("\n## ")
    found = []
    for number, block in enumerate(blocks, 1):
        due, _, text = block.partition("\n")
        found.append(Case(form, f"{name} {number}", f"{head}\n{text}".encode(), due))
    return found


def listed(key: str, count: int, first: int = 0) -> str:
    """So many names of classes at a key, counted from the first."""
    return f"{key} = {json.dumps([f'L{number};' for number in range(first, first + count)])}\n"


def answer_to(case: Case) -> tuple[int, str]:
    """The answer to a folder with this text."""
    with tempfile.TemporaryDirectory(prefix="vet-form-") as made:
        folder = Path(made)
        for form, text in FAULTLESS.items():
            (folder / f"{form}.toml").write_text(text)
        for number in range(1, 17):
            (folder / f"classes{number if number > 1 else ''}.dex").touch()
        (folder / f"{case.form}.toml").write_bytes(case.text)
        return answer(folder, "check", ".", "1")


class Texts(unittest.TestCase):
    def judge(self, cases: list[Case]) -> None:
        """Each case is answered as is due."""
        for case, found in zip(cases, at_once(answer_to, cases)):
            with self.subTest(case.name):
                refused = "classes.dex: magic" if case.due == "ok" else f"{case.form}.toml: {case.due}"
                self.assertEqual(found, (3, f"refused {refused}\n"), case.text.decode("utf-8", "replace")[:400])

    def test_each_text_has_the_answer_that_is_due(self) -> None:
        for name, (form, count) in FILES.items():
            cases = cases_of(name, form)
            self.assertEqual(len(cases), count, name)
            self.judge(cases)

    def test_bytes_that_are_no_text_are_no_form(self) -> None:
        self.judge([Case(form, f"{form} with FF", b"#\xff", "not toml") for form in FAULTLESS])

    def test_an_array_has_4096_tables_at_most(self) -> None:
        self.judge([Case(form, f"{count} of {array}", (FAULTLESS[form] + f"[[{array}]]\n" * count).encode(), said)
                    for form, array, due in ENDS for count, said in ((4096, due), (4097, f"range {array}"))])

    def test_a_list_has_4096_names_at_most(self) -> None:
        self.judge([Case(form, f"{count} of {key}", f"{FAULTLESS[form]}{listed(key, count)}".encode(), said)
                    for form, key in NAMES for count, said in ((4096, "ok"), (4097, f"range {key}"))])

    def test_two_lists_have_8192_names_at_most(self) -> None:
        text = FAULTLESS["lists"] + listed("platform", 4096)
        self.judge([Case("lists", "4096 of each", f"{text}{listed('bundled', 4096, 4096)}".encode(), "ok"),
                    Case("lists", "one in both", f"{text}{listed('bundled', 4096, 4095)}".encode(), "range bundled")])

    def test_lists_have_65536_static_fields_at_most(self) -> None:
        self.judge([Case("lists", f"{count} of static", (FAULTLESS["lists"] + "[[static]]\n" * count).encode(), said)
                    for count, said in ((65536, "missing static.class"), (65537, "range static"))])

    def test_as_many_dex_files_are_read_as_the_manifest_says(self) -> None:
        with tempfile.TemporaryDirectory(prefix="vet-form-") as made:
            folder = Path(made)
            for form, text in FAULTLESS.items():
                (folder / f"{form}.toml").write_text(text)
            (folder / "manifest.toml").write_text('package = "a"\ndex_files = 3\n')
            for name in ("classes", "classes2"):
                (folder / f"{name}.dex").touch()
            self.assertEqual(answer(folder, "check", ".", "1"), (3, "refused classes3.dex: absent\n"))


if __name__ == "__main__":
    unittest.main()
