"""What `vet` tells of a device: the apps of `examples/device`, and two apps that have each form of each cause, or nearly.

The app of the folder `odd` has each form of a method, class or instruction of which `docs/DEVICE.md`, "What strict lists
tell", says that it is a cause, and that of `even` has each neighbour that is none. Both are listings of smali.
"""
from __future__ import annotations

import subprocess
import tempfile
import unittest
from pathlib import Path

from tests.program import CHECKED, answer, program
from tests.support import DATA, EXAMPLES

DEVICE = DATA / "device"
NAMED = 'named = ["Lno/Such;"]', 'named = ["La/Later;", "Lno/Such;", "La/Later;"]'
HIDDEN = [
    "La/Down;->five()V",       # of an object, below a static one
    "La/Down;->one()V",        # private, below a public one, a class between them
    "La/Down;->two()V",        # static, below one of an object
    "La/b/Down;->four()V",     # below one of the package a
    "Lb/Down;->four()V",
    "Lb/Low;->four()V",        # below a public one and, above that, one of another package
]
ODD = [f"hidden: {it}" for it in HIDDEN] + [
    "interface code: La/I;->go()V",
    "interface code: La/I;->ring()V",
    "platform class: La/p/X;",
    "platform class: La/q/r/Y;",
    "platform class: Ljava/util/Date;",
    "unlisted class: Lx/Base;",
    "unlisted class: Lx/Unlisted;",
    "library static: La/Stat;->never()V @1",
    "library static: La/Stat;->never()V @3",
    "library static: La/Stat;->never()V @5",
    "library static: La/Stat;->never()V @7",
    "library static: La/Stat;->never()V @9",
    "click: La/Menu;->tap(Landroid/view/MenuItem;)Z",
    "click: La/Old;->tap(Landroid/view/View;)V",
    "click: La/Serv;->tap(Landroid/view/View;)V",
]
LATER = "named class: La/Later;"


def told(causes: list[str]) -> tuple[int, str]:
    """The answer that these causes make."""
    return (2, "\n".join([f"undecided {len(causes)}", *causes]) + "\n") if causes else (0, "clear\n")


class StrictTest(unittest.TestCase):

    def found(self, app: str, form: str = "", old: str = "", new: str = "") -> tuple[int, str]:
        """The answer to an app, where in one of the forms a text stands in the place of another."""
        with tempfile.TemporaryDirectory(prefix="vet-device-") as held:
            folder = Path(held) / "D"
            folder.mkdir()
            for path in DEVICE.glob("*.toml"):
                text = path.read_text()
                if path.name == form:
                    self.assertEqual(1, text.count(old))
                    text = text.replace(old, new)
                (folder / path.name).write_text(text)
            (folder / "classes.dex").write_bytes((DEVICE / app / "classes.dex").read_bytes())
            return answer(Path(held), "check", "D", "1")

    def test_each_form_of_each_cause_is_told(self) -> None:
        self.assertEqual(told(ODD + [LATER]), self.found("odd", "manifest.toml", *NAMED))

    def test_no_neighbour_of_one_is_told(self) -> None:
        self.assertEqual(told([]), self.found("even"))

    def test_lists_that_are_not_strict_tell_of_named_classes_alone(self) -> None:
        loose = "lists.toml", "strict = true\n", ""
        self.assertEqual(told([]), self.found("odd", *loose))
        self.assertEqual(told([]), self.found("odd", "lists.toml", "strict = true", "strict = false"))
        self.assertEqual(told([LATER]), self.found("even", "manifest.toml", *NAMED))

    def test_without_beginnings_a_listed_name_alone_is_of_the_platform(self) -> None:
        beginnings = 'platform = ["La/p/", "La/q/r/", "Landroid/"]\n'
        left = [it for it in ODD if it not in ("platform class: La/p/X;", "platform class: La/q/r/Y;")]
        self.assertEqual(told(left), self.found("odd", "lists.toml", beginnings, ""))

    def test_without_what_is_bundled_the_platform_has_it(self) -> None:
        self.assertEqual(told(["platform class: La/p/own/Z;"]),
                         self.found("even", "lists.toml", 'bundled = ["La/p/own/", "La/q/"]\n', ""))

    def test_a_listed_static_is_known_by_class_name_and_type(self) -> None:
        for old, new in (('class = "Llib/S;"', 'class = "Llib/T;"'), ('name = "LISTED"', 'name = "OTHER"'),
                         ('type = "Ljava/lang/String;"', 'type = "Ljava/lang/Object;"')):
            with self.subTest(new):
                self.assertEqual(told(["library static: La/Stat;->never()V @7"]),
                                 self.found("even", "lists.toml", old, new))

    def test_a_static_of_a_listed_row_is_not_told(self) -> None:
        self.assertEqual(told([it for it in ODD if not it.endswith("@7")]),
                         self.found("odd", "lists.toml", 'type = "Ljava/lang/String;"', 'type = "Ljava/lang/Object;"'))

    def test_a_click_that_no_layout_has_is_not_told(self) -> None:
        self.assertEqual(told([it for it in ODD if not it.startswith("click")]),
                         self.found("odd", "layouts.toml", '"tap"', '"other"'))


class ExamplesTest(unittest.TestCase):

    def test_each_app_of_the_page_is_answered_as_is_due(self) -> None:
        ran = subprocess.run([str(EXAMPLES / "device" / "check"), str(program())], capture_output=True, text=True,
                             check=False, env=CHECKED)
        self.assertEqual((0, "107 answers, 0 differences\n"), (ran.returncode, ran.stdout))
