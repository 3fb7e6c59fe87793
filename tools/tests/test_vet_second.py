"""The second analysis beside the first: worked flows, drawn apps and runs of them, certificates, and workers.

An app is judged by the second where its lists ask for it and have fewer `rows` than follow by the first: one less than
the first's certificate has.
"""
from __future__ import annotations

import sys
import unittest
from dataclasses import dataclass
from pathlib import Path

from tests.app_runs import Arrival, arrivals
from tests.drawn_apps import BASE, BOX, CALLED, DEVICE_ID, GET, GIVE, MAIN, MET, POST, PUT, DrawnApp, drawn
from tests.program import PROVED, answer, at_once, program
from tests.small_dex import OBJECT, AppClass, Called, Code, Instruction
from tests.story_check import blocks_of, fault_of, is_second
from tests.support import ROOT, FolderCase
from tests.test_vet_answers import ANSWERS, SAMPLE, Case, cases_of
from vet_tools.certificate import FIRST, SECOND, Certificate, Kind, node_of, site_of

sys.path.append(str(ROOT / "bench"))
from certificate_cases import begins  # noqa: E402  (that folder is on the path just now)

ASKS = 'large = "cells"'
WORKERS = ("1", "2", "4", "16")
PATHS = {Kind.TAINT, Kind.STATIC_TAINT, Kind.EFFECT, Kind.METHOD_EFFECT, Kind.EXIT_TAINT, Kind.COMP_TAINT,
         Kind.HANDED_TAINT}
ROWS = 200_000
CREATED = Called(MAIN, "onCreate", ("Landroid/os/Bundle;",), "V")
# So many rows drawn apps may have, and so many runs of so many steps are made of each.
DRAWN_ROWS, RUNS, STEPS = 10_000, 8, 250
# The worked flows that the second answers otherwise, and how: it knows no order in what objects hold, and of a
# component one object alone; and behind more than five fields it tells apart what the first does not.
OTHERWISE = {
    "what is stored in the last event of an object the next object does not have":
        "1\nflagged 1\ndevice_id -> network at La/Main;->onCreate(Landroid/os/Bundle;)V @2\n",
    "after_destroy": "1\nflagged 1\ndevice_id -> network at La/Main;->onCreate(Landroid/os/Bundle;)V @2\n",
    "another field of the sixth of six, where the path of keys is cut": "0\nclear\n",
}


@dataclass(frozen=True)
class Judged:
    """What is answered to an app by one analysis, and the certificate where there is one."""
    text: str
    certificate: bytes

    @property
    def lines(self) -> set[str]:
        """Its findings."""
        return {line for line in self.text.splitlines() if " -> " in line}

    @property
    def rows(self) -> list[tuple[int, ...]]:
        """The rows of the table."""
        return list(Certificate(self.certificate).rows()) if self.certificate else []


def apps() -> int:
    """How many apps are drawn of each sort: fewer by the unproved program, which is slow."""
    return 150 if program() == PROVED else 50


def certified(folder: Path, files: dict[str, bytes], name: str) -> Judged:
    """What `certify` answers to these files, and writes."""
    (folder / name).mkdir()
    for file, content in files.items():
        (folder / name / file).write_bytes(content)
    status, text = answer(folder, "certify", name, f"{name}.cert")
    made = folder / f"{name}.cert"
    return Judged(f"{status}\n{text}", made.read_bytes() if made.exists() else b"")


def asking(lists: bytes, rows: int) -> bytes:
    """These lists with so many rows and the word."""
    lines = [line for line in lists.splitlines(True) if not line.startswith((b"rows = ", b"large = "))]
    return f"rows = {rows}\n{ASKS}\n".encode() + b"".join(lines)


def by_both(folder: Path, files: dict[str, bytes], name: str) -> tuple[Judged, Judged]:
    """What the first says of an app, and what the second does; where the app is too large for the first, with as many
    rows."""
    first = certified(folder, files, f"{name}-1")
    rows = int(files["lists.toml"].split(b"rows = ")[1].split()[0])
    if first.certificate:
        rows = max(1, Certificate(first.certificate).count - 1)
    return first, certified(folder, {**files, "lists.toml": asking(files["lists.toml"], rows)}, f"{name}-2")


class WorkedTest(FolderCase):
    """The worked flows: the cases of the flow and the examples, each by both analyses."""

    def files_of(self, case: Case) -> dict[str, bytes]:
        sample = {name: (ANSWERS / file).read_bytes() for name, file in SAMPLE.items()}
        return {name: content for name, content in {**sample, **case.changes}.items() if content is not None}

    def check(self, name: str, count: int) -> None:
        """So many cases have a table by the second, and each is answered as is due. Where the first says nothing of
        registers and labels the second has all its rows, so there is none that has too many by the first alone."""
        cases = [case for case in cases_of(name) if "too large" not in case.due and "refused" not in case.due]
        found = at_once(lambda one: by_both(self.folder, self.files_of(one[1]), str(one[0])), enumerate(cases))
        judged = [(case, second) for case, (first, second) in zip(cases, found)
                  if {row[0] for row in first.rows} & {Kind.POINTS, *PATHS}]
        for case, (first, _) in zip(cases, found):
            with self.subTest(case.title, by="first"):
                self.assertEqual((case.due, FIRST), (first.text, first.certificate[:8]))
        for case, second in judged:
            with self.subTest(case.title, by="second"):
                self.assertEqual((OTHERWISE.get(case.title, case.due), SECOND), (second.text, second.certificate[:8]))
        self.assertEqual(count, len(judged))
        self.check_stories([(number, second) for number, (_, second) in enumerate(found) if second.lines])

    def check_stories(self, judged: list[tuple[int, Judged]]) -> None:
        """Each finding by the second has a story of rows and rules of that set."""
        told = at_once(lambda one: answer(self.folder, "story", f"{one[0]}-2"), judged)
        for (number, second), (status, text) in zip(judged, told):
            with self.subTest(number=number):
                self.assertTrue(f"{status}\n{text}".startswith(second.text))
                blocks = blocks_of(f"{status}\n{text}"[len(second.text):])
                found = [(fault_of(block), is_second(block)) for block in blocks]
                self.assertEqual([("", True)] * len(second.lines), found)

    def test_the_flow(self) -> None:
        self.check("flow_cases.txt", 50)

    def test_the_examples(self) -> None:
        self.check("example_cases.txt", 27)

    def test_every_opcode_that_carries_a_value(self) -> None:
        self.check("opcode_cases.txt", 6)


def method(called: Called, *body: Instruction, is_static: bool = False) -> Code:
    """A method whose locals are the registers 0 to 4, and whose arguments stand behind them."""
    code = Code(called, is_static, 0, list(body))
    code.registers = 5 + code.ins
    return code


def small(*methods: Code, more: tuple[AppClass, ...] = (), is_plain: bool = False) -> DrawnApp:
    """An app of the activity with these methods, a class with two fields, and these classes more."""
    main = AppClass(MAIN, "Landroid/app/Activity;", methods=list(methods))
    return DrawnApp((main, AppClass(BASE, fields=("f0", "f1")), *more), is_plain)


F0, F1, ONE, TWO = (BASE, "f0"), (BASE, "f1"), "Lh/One;", "Lh/Two;"
ID: tuple[Instruction, ...] = (("call", DEVICE_ID), ("result", 2))
MADE = Called(MAIN, "made", (), OBJECT)
SENDS = ("iget", 0, 5, F0), ("call", POST, 0)


def made_by(*body: Instruction) -> Code:
    """A helper that makes an object."""
    return method(MADE, *body, ("return", 1), is_static=True)


def two_made(*use: Instruction) -> Code:
    """`onCreate` that has the helper make two objects, and then goes on."""
    made: Instruction = ("call", MADE)
    return method(CREATED, made, ("result", 0), made, ("result", 1), *ID, *use, ("end",))


def either(*use: Instruction) -> Code:
    """`onCreate` with an object that holds the device id and one that does not, of which either is in register 3."""
    return method(CREATED, ("new", 0, TWO), *ID, ("iput", 2, 0, F0), ("new", 1, ONE), ("if", 2, 8), ("move", 3, 0),
                  ("goto", 9), ("move", 3, 1), *use, ("end",))


FOUND, TAKEN = "device_id -> network at ", Called(ONE, "called", (OBJECT,), "V")
ONE_M = Called(ONE, MET, (OBJECT,), OBJECT)
# What each of the two finds, by hand from docs/RULES.md: the title, the app, the finding and which of the two has it.
KINDS: tuple[tuple[str, DrawnApp, str, str], ...] = (
    ("a field is stored to and then read", small(method(
        CREATED, ("new", 0, BASE), *ID, ("iput", 2, 0, F0), ("iget", 1, 0, F0), ("call", POST, 1), ("end",))),
     f"{CREATED.text} @10", "both"),
    ("another field is read", small(method(
        CREATED, ("new", 0, BASE), *ID, ("iput", 2, 0, F0), ("iget", 1, 0, F1), ("call", POST, 1), ("end",))),
     f"{CREATED.text} @10", "none"),
    ("what is overwritten before the read", small(method(
        CREATED, ("new", 0, BASE), *ID, ("iput", 2, 0, F0), ("const", 3), ("iput", 3, 0, F0), ("iget", 1, 0, F0),
        ("call", POST, 1), ("end",))), f"{CREATED.text} @13", "both"),
    ("a field is stored to after it was read", small(method(
        CREATED, ("new", 0, BASE), ("iget", 1, 0, F0), ("call", POST, 1), *ID, ("iput", 2, 0, F0), ("end",))),
     f"{CREATED.text} @4", "second"),
    ("a box is filled after it was sent", small(method(
        CREATED, ("new", 0, BOX), ("call", POST, 0), *ID, ("virtual", PUT, 0, 2), ("end",))),
     f"{CREATED.text} @2", "second"),
    ("a box is filled after its elements were copied", small(method(
        CREATED, ("new", 0, BOX), ("new", 1, BOX), ("virtual", Called(BOX, "copy", (BOX,), "V"), 1, 0), *ID,
        ("virtual", PUT, 0, 2), ("virtual", GET, 1), ("result", 3), ("call", POST, 3), ("end",))),
     f"{CREATED.text} @18", "second"),
    ("an array that one instruction makes for two callers", small(
        made_by(("const", 0), ("new_array", 1, 0)),
        two_made(("const", 3), ("aput", 2, 0, 3), ("aget", 4, 1, 3), ("call", POST, 4))),
     f"{CREATED.text} @17", "second"),
    ("a box that one instruction makes for two callers", small(
        made_by(("new", 1, BOX)),
        two_made(("virtual", PUT, 0, 2), ("virtual", GET, 1), ("result", 4), ("call", POST, 4))),
     f"{CREATED.text} @19", "second"),
    ("an object of the app that one instruction makes for two callers", small(
        made_by(("new", 1, BASE)), two_made(("iput", 2, 0, F0), ("iget", 4, 1, F0), ("call", POST, 4))),
     f"{CREATED.text} @16", "none"),
    ("either of two objects is called, and only the other one holds it", small(
        either(("virtual", Called(BASE, MET, (OBJECT,), OBJECT), 3, 3)),
        more=(AppClass(TWO, BASE), AppClass(ONE, BASE, methods=[method(ONE_M, *SENDS, ("return", 0))]))),
     f"{ONE_M.text} @2", "first"),
    ("either of two objects is handed over, and only the other one holds it", small(
        either(("call", GIVE, 3)),
        more=(AppClass(TWO, BASE), AppClass(ONE, BASE, (CALLED,), methods=[method(TAKEN, *SENDS, ("end",))]))),
     f"{TAKEN.text} @2", "first"),
)


class KindsTest(FolderCase):
    """An app for each kind of finding that only one of the two has, and for some that both have, or none."""

    def test_each_finds_what_it_is_said_to_find(self) -> None:
        found = at_once(lambda one: by_both(self.folder, one[1][1].files(ROWS), str(one[0])), enumerate(KINDS))
        for (title, _, place, who), judged in zip(KINDS, found):
            for one, name, magic in zip(judged, ("first", "second"), (FIRST, SECOND)):
                due = f"1\nflagged 1\n{FOUND}{place}\n" if who in (name, "both") else "0\nclear\n"
                with self.subTest(title, by=name):
                    self.assertEqual((due, magic), (one.text, one.certificate[:8]))


def is_cut(judged: Judged) -> bool:
    """Whether a path of the first has been cut to five keys: such a path comes by an effect, and is open."""
    return any(row[0] == Kind.EFFECT and site_of(node_of(row[1:])[1])[1][0] >= 128 for row in judged.rows)


class DrawnTest(FolderCase):
    """Drawn apps by both, beside runs of them on the machine."""

    def judged(self, is_plain: bool) -> list[tuple[set[Arrival], Judged, Judged]]:
        """Of each drawn app what arrives in its runs, and what the two say."""
        def of(seed: int) -> tuple[set[Arrival], Judged, Judged]:
            app = drawn(seed, is_plain)
            return arrivals(app, RUNS, STEPS), *by_both(self.folder, app.files(DRAWN_ROWS), str(seed))

        return at_once(of, range(apps()))

    def check(self, found: list[tuple[set[Arrival], Judged, Judged]]) -> None:
        """Three in eight are judged by the first, six by the second; who judges an app names what arrived in its runs."""
        large = f"2\nundecided 1\ntoo large: {DRAWN_ROWS}\n"
        for seed, (arrived, first, second) in enumerate(found):
            due = {f"{one.source} -> {one.sink} at {one.place}" for one in arrived}
            for judged, magic in (first, FIRST), (second, SECOND):
                with self.subTest(seed=seed, by=magic):
                    self.assertEqual(magic if judged.text != large else b"", judged.certificate[:8])
                    self.assertLessEqual(due if judged.text != large else set(), judged.lines)
        for number, least in (1, 3), (2, 6):
            whole = sum(bool(one[number].certificate) for one in found)
            self.assertGreater(whole, len(found) * least // 8)

    def test_what_arrives_in_a_run_is_found_by_both(self) -> None:
        found = self.judged(False)
        self.check(found)
        self.assertGreater(sum(bool(arrived) for arrived, _, _ in found), len(found) // 4)

    def test_in_plain_apps_what_the_first_finds_the_second_finds(self) -> None:
        found = self.judged(True)
        self.check(found)
        whole = [(first, second) for _, first, second in found
                 if first.certificate and second.certificate and not is_cut(first)]
        self.assertGreater(len(whole), len(found) // 2)
        for first, second in whole:
            self.assertLessEqual(first.lines, second.lines)


class CertificateTest(FolderCase):
    """A certificate of the second kind of the example `other_box`, whole and spoilt."""

    def setUp(self) -> None:
        super().setUp()
        files = {name: (ANSWERS / file).read_bytes() for name, file in SAMPLE.items()}
        files["lists.toml"] = (ANSWERS / "example_lists.toml").read_bytes()
        files["classes.dex"] = (ANSWERS / "example_other_box.dex").read_bytes()
        first, second = by_both(self.folder, files, "D")
        self.assertEqual(("0\nclear\n",) * 2, (first.text, second.text))
        self.first, self.whole = first.certificate, second.certificate
        self.begins = begins(self.whole)
        self.rows = [self.whole[begin:end] for begin, end in zip(self.begins, self.begins[1:])]

    def rechecked(self, certificates: list[bytes]) -> list[tuple[int, str]]:
        """What is answered to each of these certificates of the app under the lists that ask for the second."""
        def answer_to(numbered: tuple[int, bytes]) -> tuple[int, str]:
            number, content = numbered
            (self.folder / f"C{number}").write_bytes(content)
            return answer(self.folder, "recheck", "D-2", f"C{number}")

        return at_once(answer_to, enumerate(certificates))

    def of(self, rows: list[bytes]) -> bytes:
        return self.whole[:40] + len(rows).to_bytes(4, "little") + b"".join(rows)

    def test_whole_it_is_taken_and_that_of_other_lists_is_not(self) -> None:
        kinds = {row[0] for row in Certificate(self.whole).rows()}
        self.assertEqual((set(), {Kind.LABEL, Kind.CELL_LABEL, Kind.HOLDS}),
                         (kinds & PATHS, kinds & {Kind.LABEL, Kind.CELL_LABEL, Kind.HOLDS}))
        due = f"certificate refused: digest {self.first[8:40].hex()} {self.whole[8:40].hex()}\n"
        self.assertEqual([(0, "clear\n"), (9, due)], self.rechecked([self.whole, self.first]))

    def test_each_row_that_is_left_out_is_told(self) -> None:
        found = self.rechecked([self.of(self.rows[:number] + self.rows[number + 1:])
                                for number in range(len(self.rows))])
        start = bytes([14]) + bytes(5)
        for row, said in zip(self.rows, found):
            reason = "no start" if row == start else "not closed"
            with self.subTest(row=row.hex()):
                self.assertEqual((9, f"certificate refused: {reason} {row.hex()}\n"), said)

    def test_two_rows_that_are_exchanged_are_out_of_order(self) -> None:
        tries = []
        for number in range(len(self.rows) - 1):
            one, other = self.rows[number:number + 2]
            tries.append((self.begins[number] + len(other),
                          self.of([*self.rows[:number], other, one, *self.rows[number + 2:]])))
        for (at, _), said in zip(tries, self.rechecked([content for _, content in tries])):
            with self.subTest(at=at):
                self.assertEqual((9, f"certificate refused: order at {at}\n"), said)

    def test_cut_within_a_row_it_is_refused_there(self) -> None:
        cuts = [(begin, end - 1) for begin, end in zip(self.begins, self.begins[1:])]
        for (begin, _), said in zip(cuts, self.rechecked([self.whole[:cut] for _, cut in cuts])):
            with self.subTest(begin=begin):
                self.assertEqual((9, f"certificate refused: cut at {begin}\n"), said)


class WorkersTest(FolderCase):
    """The second analysis by 1, 2, 4 and 16 workers."""

    def test_each_number_of_workers_tells_the_same(self) -> None:
        for seed in range(8):
            _, second = by_both(self.folder, drawn(seed, True).files(DRAWN_ROWS), str(seed))
            self.assertEqual(SECOND, second.certificate[:8])
            found = at_once(lambda workers, name=f"{seed}-2": answer(self.folder, "check", name, workers), WORKERS)
            with self.subTest(seed=seed):
                self.assertEqual([second.text] * len(WORKERS), [f"{status}\n{text}" for status, text in found])

    def test_an_app_too_large_for_both(self) -> None:
        files = drawn(1, False).files(10, ASKS)
        (self.folder / "D").mkdir()
        for name, content in files.items():
            (self.folder / "D" / name).write_bytes(content)
        found = at_once(lambda workers: answer(self.folder, "check", "D", workers), WORKERS)
        self.assertEqual([(2, "undecided 1\ntoo large: 10\n")] * len(WORKERS), found)


if __name__ == "__main__":
    unittest.main()
