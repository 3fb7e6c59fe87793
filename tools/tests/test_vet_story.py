"""What `story` prints behind the report: for each finding how the row follows that tells it first."""
from __future__ import annotations

import shutil
import unittest
from pathlib import Path

from tests.program import answer, at_once, by_cells
from tests.story_check import ARRIVE, LIVE, blocks_of, fault_of, is_second, rows_of
from tests.support import DATA, EXAMPLES, FolderCase, expected

ANSWERS = DATA / "answers"
FORMS = ("manifest.toml", "layouts.toml", "declaration.toml", "lists.toml")


def u4(*numbers: int) -> bytes:
    return b"".join(number.to_bytes(4, "little") for number in numbers)


def node(pc: int) -> bytes:
    """The instruction at this address of method 0, which event 1 of component 0 runs."""
    return bytes([0]) + u4(0, 1, 0, pc)


def reached(pc: int) -> bytes:
    return bytes([1]) + node(pc)


def taint(pc: int, register: int, path: bytes) -> bytes:
    """The register leads to a value of category 0 by this path."""
    return bytes([3]) + node(pc) + u4(register) + path + bytes([0])


def label(pc: int, register: int) -> bytes:
    """The value of the register is of category 0, by the second set of rules."""
    return bytes([21]) + node(pc) + u4(register) + bytes([0])


def points(pc: int, register: int, site: bytes) -> bytes:
    return bytes([2]) + node(pc) + u4(register) + site


def uses(pc: int, row: int) -> bytes:
    return bytes([20]) + node(pc) + bytes([0]) + u4(row)


# The sample takes a device id at 0 by row 11 of its lists, moves it from the register of results to register 0 at 3,
# and posts it at 4 by row 12, whose sink is category 2. By docs/RULES.md, the earliest first:
FRONT = [
    ("start", bytes([LIVE]) + u4(0) + bytes([0])),
    ("rule 40 from 1", bytes([LIVE]) + u4(0) + bytes([1])),
    ("rule 40 from 2", reached(0)),
    ("rule 1 from 3", reached(3)),
    ("rule 27 from 3", uses(0, 11)),
    ("rule 1 from 4", reached(4)),
]
ARRIVES = bytes([ARRIVE, 0, 2]) + node(4)
# The result is of the category itself, by the path of no keys, and so are its elements, by the path of the one key 0:
# both stories are right.
SAMPLES = [[
    *FRONT,
    ("rule 35 from 5", taint(3, 65_536, path)),
    ("rule 27 from 6", uses(4, 12)),
    ("rule 3 from 7", taint(4, 0, path)),
    ("rule 31 from 8 9", ARRIVES),
] for path in (bytes([0]), bytes([1]) + u4(0))]
# By the second set the result is of the category at 3, where the register of results is read, and then register 0 at 4,
# where the call reads that; or the object that the call at 0 of method 0 makes, in whatever context, has an element of
# the category, so that it holds it, and register 0 may be that object at 4. Both stories are right.
RESULT = bytes([4]) + u4(0, 0)
SECOND_SAMPLES = [[
    *FRONT,
    ("rule 35 from 5", label(3, 65_536)),
    ("rule 27 from 6", uses(4, 12)),
    ("rule 3 from 7", label(4, 0)),
    ("rule 31 from 8 9", ARRIVES),
], [
    *FRONT,
    ("rule 34 from 5", points(3, 65_536, RESULT)),
    ("rule 35 from 5", bytes([23]) + RESULT + u4(0) + bytes([0])),
    ("rule 27 from 6", uses(4, 12)),
    ("rule 3 from 7", points(4, 0, RESULT)),
    ("rule 14 from 8", bytes([24]) + RESULT + bytes([0])),
    ("rule 31 from 9 10 11", ARRIVES),
]]
SENT = "device_id -> network at La/Main;->onCreate(Landroid/os/Bundle;)V @4\n"


class StoryTest(FolderCase):
    """A test with the folder `D` of the sample."""

    def setUp(self) -> None:
        super().setUp()
        (self.folder / "D").mkdir()
        for name in FORMS:
            shutil.copy(ANSWERS / name, self.folder / "D" / name)
        shutil.copy(ANSWERS / "device_id_posted.dex", self.folder / "D" / "classes.dex")

    def assert_told(self, samples: list[list[tuple[str, bytes]]]) -> str:
        """The story of the sample is one of these; gives what is printed."""
        due = []
        for sample in samples:
            lines = [f"{number} {how}: {row.hex()}\n" for number, (how, row) in enumerate(sample, 1)]
            due.append((1, f"flagged 1\n{SENT}story {len(lines)}\n{''.join(lines)}"))
        found = answer(self.folder, "story", "D")
        self.assertIn(found, due)
        return found[1]

    def test_the_sample_has_one_story_of_ten_lines(self) -> None:
        self.assertTrue(self.assert_told(SAMPLES).startswith(
            f"flagged 1\n{SENT}story 10\n1 start: 0e0000000000\n2 rule 40 from 1: 0e0000000001\n"))

    def test_by_the_second_set_it_is_told_by_the_rows_of_that(self) -> None:
        by_cells(self.folder, "D")
        self.assert_told(SECOND_SAMPLES)

    def of(self, dex: str, second: bool) -> tuple[str, list[list[str]]]:
        """The report of the sample with another DEX file, and the stories behind it, in which there is no fault and
        which are by the set of rules that is asked for."""
        shutil.copy(ANSWERS / dex, self.folder / "D" / "classes.dex")
        if second:
            by_cells(self.folder, "D")
        status, text = answer(self.folder, "story", "D")
        self.assertEqual(1, status, text)
        report, head, rest = text.partition("story ")
        blocks = blocks_of(head + rest)
        self.assertEqual([("", second)] * len(blocks), [(fault_of(block), is_second(block)) for block in blocks])
        return report, blocks

    def test_each_of_two_findings_at_one_place_is_told_in_the_first_context_that_has_it(self) -> None:
        # Method 0 takes a device id, a phone number and a device id, and calls method 1 with each, at 4, 11 and 18;
        # that posts it at 0. The number is category 4, since it stands behind the four others.
        lists = self.folder / "D" / "lists.toml"
        row = ('[[method]]\nclass = "Lvendor/Device;"\nname = "phone"\nproto = "()Ljava/lang/String;"\n'
               'static = true\nsource = "phone"\n')
        lists.write_text(lists.read_text().replace('"log"]', '"log", "phone"]') + row)
        place = "network at La/Main;->send(Ljava/lang/Object;)V @0\n"
        called = [bytes([5]) + u4(0, pc, 1, 0) for pc in (4, 11)]
        for second in (False, True):
            report, blocks = self.of("two_senders.dex", second)
            self.assertEqual(f"flagged 2\ndevice_id -> {place}phone -> {place}", report)
            self.assertEqual([bytes([ARRIVE, 0, 2]) + called[0], bytes([ARRIVE, 4, 2]) + called[1]],
                             [rows_of(block)[-1] for block in blocks])

    def test_a_line_is_named_twice_where_an_object_is_put_into_itself(self) -> None:
        # In onCreate, method 0, at 0, the register of the receiver, 1 of 3, holds the component, and that goes into the
        # component under the key of its field `me`: 2, behind those of elements and of `id`.
        component = bytes([2]) + u4(0)
        cell = bytes([4]) + component + u4(2) + component
        for second in (False, True):
            report, (block,) = self.of("put_into_itself.dex", second)
            self.assertEqual("flagged 1\ndevice_id -> network at La/Main;->onStop()V @4\n", report)
            there = rows_of(block).index(points(0, 1, component)) + 1
            self.assertIn(f"rule 8 from {there} {there}: {cell.hex()}", [line.partition(" ")[2] for line in block])

    def test_of_two_ways_the_shorter_is_told(self) -> None:
        # From 5 control goes on to 17, where the device id is posted, at once or over ten steps that do nothing; and
        # from 20 to 22, where it is posted again, the other way round: behind the branch at once, or from 26 on over ten.
        # So the first has the two Live rows, Reached at 0, 3, 4, 5 and 17, Taint of the result at 3 and of the register
        # at 4, 5 and 17, Uses at 0 and 17, and the arrival; the second Reached and Taint at 20 and 22 besides.
        report, blocks = self.of("two_ways.dex", False)
        self.assertEqual("flagged 2\n" + "".join(SENT.replace("@4", f"@{pc}") for pc in (17, 22)), report)
        self.assertEqual([14, 18], list(map(len, blocks)))
        longer = {reached(pc) for pc in (*range(7, 17), *range(26, 37))}
        for block in (*blocks, *self.of("two_ways.dex", True)[1]):
            self.assertFalse(longer & set(rows_of(block)))

    def test_where_there_is_no_table_the_report_stands_alone(self) -> None:
        lists = self.folder / "D" / "lists.toml"
        lists.write_text(lists.read_text().replace("rows = 200000\n", "rows = 9\n"))
        self.assertEqual((2, "undecided 1\ntoo large: 9\n"), answer(self.folder, "story", "D"))
        lists.write_text(lists.read_text().replace("rows = 9\n", 'rows = 9\nlarge = "cells"\n'))
        self.assertEqual((2, "undecided 1\ntoo large: 9\n"), answer(self.folder, "story", "D"))
        lists.unlink()
        self.assertEqual((3, "refused lists.toml: absent\n"), answer(self.folder, "story", "D"))
        self.assertEqual((3, "refused manifest.toml: absent\n"), answer(self.folder, "story", "nowhere"))

    def test_what_is_declared_has_no_story(self) -> None:
        declaration = self.folder / "D" / "declaration.toml"
        declaration.write_text('[[use]]\nsource = "device_id"\nsink = "network"\n')
        self.assertEqual((0, "clear\n"), answer(self.folder, "story", "D"))

    def test_words_of_another_form_are_none(self) -> None:
        due = 4, "unknown command or argument\n"
        for words in (["story"], ["story", ""], ["story", "D", "1"], ["story", "x" * 1025], ["Story", "D"]):
            with self.subTest(words=words):
                self.assertEqual(due, answer(self.folder, *words))


class ExamplesTest(FolderCase):
    """The stories of the examples: behind the report of each, a block for each of its findings."""

    def check(self, folder: Path, due: dict[str, tuple[int, str]], second: bool) -> None:
        """Each app of the folder has its answer, and behind it its stories, by the set of rules that is asked for."""
        answers = at_once(lambda name: answer(folder, "story", name), due)
        for (name, (status, report)), (told, text) in zip(due.items(), answers):
            with self.subTest(name):
                self.assertEqual(status, told)
                self.assertTrue(text.startswith(report), text)
                findings = [line for line in report.splitlines() if " -> " in line]
                blocks = blocks_of(text[len(report):])
                self.assertEqual(len(findings), len(blocks))
                for finding, block in zip(findings, blocks):
                    self.assertEqual(("", second), (fault_of(block), is_second(block)))
                    self.assertEqual(int(finding.rpartition("@")[2]),
                                     int.from_bytes(rows_of(block)[-1][-4:], "little"))

    def test_each_finding_has_its_story(self) -> None:
        self.check(EXAMPLES, expected(), False)

    def test_each_finding_by_the_second_set_has_its_story(self) -> None:
        # To the second set no store is before a read: what onDestroy stores may be read in onCreate.
        due = {**expected(), "after_destroy": (1, f"flagged 1\n{SENT.replace('@4', '@2')}")}
        for name in due:
            shutil.copytree(EXAMPLES / name, self.folder / name)
        at_once(lambda name: by_cells(self.folder, name), due)
        self.check(self.folder, due, True)


if __name__ == "__main__":
    unittest.main()
