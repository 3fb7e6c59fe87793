"""What `certify` writes and `recheck` answers: to changed certificates, and where files can't be read or written."""
from __future__ import annotations

import hashlib
import shutil
import unittest
from collections import Counter
from pathlib import Path

from tests.program import answer, at_once
from tests.support import DATA, ROOT, FolderCase
from vet_tools.certificate import Certificate, CertificateFault, Kind

ANSWERS = DATA / "answers"
# A certificate of 273 bytes that another program wrote, of another app.
UNLISTED_CALL = ROOT / "crates" / "table_cases" / "data" / "unlisted_call.cert"
FORMS = ("manifest.toml", "layouts.toml", "declaration.toml")
PARTS = (*FORMS, "lists.toml", "classes.dex")
MAGIC, SECOND = b"VETCERT2", b"VETCELL1"


def u4(*numbers: int) -> bytes:
    return b"".join(number.to_bytes(4, "little") for number in numbers)


def certificate(digest: bytes, rows: list[bytes], magic: bytes = MAGIC) -> bytes:
    return magic + digest + u4(len(rows)) + b"".join(rows)


def refused(reason: str) -> tuple[int, str]:
    return 9, f"certificate refused: {reason}\n"


class FolderTest(FolderCase):
    """A test with the folder `D` of an app, beside which certificates stand."""

    def setUp(self) -> None:
        super().setUp()
        (self.folder / "D").mkdir()
        self.put_app()

    def put_app(self) -> None:
        """Writes the files of `D`: those of the example `other_box`."""
        for name in FORMS:
            shutil.copy(ANSWERS / name, self.folder / "D" / name)
        shutil.copy(ANSWERS / "example_lists.toml", self.folder / "D" / "lists.toml")
        shutil.copy(ANSWERS / "example_other_box.dex", self.folder / "D" / "classes.dex")

    def certify(self, path: str = "C") -> tuple[int, str]:
        return answer(self.folder, "certify", "D", path)

    def rechecked(self, certificates: list[bytes]) -> list[tuple[int, str]]:
        """What is answered to each of these certificates, whose file is called `C`."""
        def answer_to(numbered: tuple[int, bytes]) -> tuple[int, str]:
            number, content = numbered
            beside = self.folder / str(number)
            beside.mkdir()
            (beside / "C").write_bytes(content)
            return answer(self.folder, "recheck", "D", f"{number}/C")

        return at_once(answer_to, enumerate(certificates))


def changed(whole: bytes, change: str) -> bytes:
    """The certificate after a change of `certificate_cases.txt`.

    `whole` changes nothing; `drop A B` takes the row from offset A to B out; `swap A B C` exchanges the rows from A to
    B and from B to C; `rows N HEX` has N rows of these bytes in place of its own; `other` is that of another app; and
    `nothing` has no bytes.
    """
    how, *words = change.split(" ")
    if how == "drop":
        start, end = map(int, words)
        return whole[:40] + u4(int.from_bytes(whole[40:44], "little") - 1) + whole[44:start] + whole[end:]
    if how == "swap":
        start, middle, end = map(int, words)
        return whole[:start] + whole[middle:end] + whole[start:middle] + whole[end:]
    if how == "rows":
        return whole[:40] + u4(int(words[0])) + bytes.fromhex(words[1])
    return {"whole": whole, "other": (ANSWERS / "empty.cert").read_bytes(), "nothing": b""}[change]


class ChangedTest(FolderTest):

    def test_certify_writes_what_another_program_wrote(self) -> None:
        self.assertEqual((0, "clear\n"), self.certify())
        self.assertEqual((ANSWERS / "other_box.cert").read_bytes(), (self.folder / "C").read_bytes())

    def test_each_changed_certificate_has_its_answer(self) -> None:
        whole = (ANSWERS / "other_box.cert").read_bytes()
        cases = [line.split(": ", 1) for line in (ANSWERS / "certificate_cases.txt").read_text().splitlines()]
        self.assertEqual(355, len(cases))
        found = self.rechecked([changed(whole, change) for change, _ in cases])
        for (change, due), (status, text) in zip(cases, found):
            with self.subTest(change):
                self.assertEqual(f"{due}\n", f"{status} {text}")


class FaultTest(FolderTest):

    def test_a_file_that_cannot_be_read_is_a_read_fault_and_no_certificate_is_written(self) -> None:
        shutil.copy(ANSWERS / "other_box.cert", self.folder / "given")
        for name in PARTS:
            (self.folder / "D" / name).unlink()
            (self.folder / "D" / name).mkdir()
            with self.subTest(name):
                self.assertEqual((5, f"read fault D/{name}\n"), self.certify())
                self.assertFalse((self.folder / "C").exists())
                self.assertEqual((5, f"read fault D/{name}\n"), answer(self.folder, "recheck", "D", "given"))
            (self.folder / "D" / name).rmdir()
            self.put_app()

    def test_where_the_certificate_cannot_be_written_nothing_is_printed(self) -> None:
        (self.folder / "C").mkdir()
        (self.folder / "full").symlink_to("/dev/full")
        for path in ("C", "none/C", "full"):
            with self.subTest(path):
                self.assertEqual((6, ""), self.certify(path))
        self.assertEqual([], list((self.folder / "C").iterdir()))
        self.assertFalse((self.folder / "none").exists())

    def test_a_certificate_that_cannot_be_read_is_a_read_fault(self) -> None:
        (self.folder / "C").mkdir()
        self.assertEqual((5, "read fault C\n"), answer(self.folder, "recheck", "D", "C"))

    def test_recheck_without_a_certificate(self) -> None:
        self.assertEqual((3, "refused C: absent\n"), answer(self.folder, "recheck", "D", "C"))


def live(component: int, state: int) -> bytes:
    return bytes([14]) + u4(component) + bytes([state])


# The table of the small app: an activity whose onCreate, the event 1, is method 0, has two registers and does nothing.
# It comes to each state; onCreate begins, with the activity in register 0 and a fresh object as its argument 1.
ENTRY = bytes([0]) + u4(0, 1) + u4(0) + u4(0)
REACHED = bytes([1]) + ENTRY
POINTS = [bytes([2]) + ENTRY + u4(0) + bytes([2]) + u4(0),
          bytes([2]) + ENTRY + u4(1) + bytes([1, 0]) + u4(0, 1) + u4(1)]
LIVE = [live(0, state) for state in range(8)]
ROWS = [REACHED, *POINTS, *LIVE]
NO_START = refused(f"no start {LIVE[0].hex()}")
STRANGERS = [live(1, 0), live(2, 0)]


class SmallAppTest(FolderTest):
    """A test with the small app, whose certificates it makes itself."""

    def put_app(self) -> None:
        for name in ("manifest.toml", "layouts.toml", "lists.toml", "classes.dex"):
            shutil.copy(ANSWERS / "table" / name, self.folder / "D" / name)
        (self.folder / "D" / "declaration.toml").write_bytes(b"")

    def digest(self, *names: str) -> bytes:
        """The digest of these files of the app, or of those of an app with one DEX file."""
        contents = [(self.folder / "D" / name).read_bytes() for name in names or PARTS]
        return hashlib.sha256(b"".join(u4(len(content)) + content for content in contents)).digest()


class TableTest(SmallAppTest):
    """What the checker says of tables of a small app, whole and spoilt, which certificates of the test's own bring."""

    def said_of(self, tables: list[list[bytes]]) -> list[tuple[int, str]]:
        digest = self.digest()
        return self.rechecked([certificate(digest, rows) for rows in tables])

    def test_eleven_rows_follow_and_ten_are_too_few(self) -> None:
        lists = self.folder / "D" / "lists.toml"
        self.assertIn("rows = 11\n", lists.read_text())
        self.assertEqual((0, "clear\n"), self.certify())
        self.assertEqual(certificate(self.digest(), ROWS), (self.folder / "C").read_bytes())
        lists.write_text(lists.read_text().replace("rows = 11\n", "rows = 10\n"))
        self.assertEqual((2, "undecided 1\ntoo large: 10\n"), answer(self.folder, "check", "D", "1"))

    def test_a_whole_table_is_good_and_a_spoilt_one_has_its_first_defect(self) -> None:
        tables = {
            "whole": (ROWS, (0, "clear\n")),
            "empty": ([], NO_START),
            "without the start": ([REACHED, *POINTS, *LIVE[1:]], NO_START),
            "without the reached row": ([*POINTS, *LIVE], refused(f"not closed {REACHED.hex()}")),
            "with strangers": ([*ROWS, *STRANGERS], refused(f"stranger {STRANGERS[0].hex()}")),
            "strangers alone": (STRANGERS, refused(f"stranger {STRANGERS[0].hex()}")),
            "the start alone": (LIVE[:1], refused(f"not closed {LIVE[1].hex()}")),
        }
        found = self.said_of([rows for rows, _ in tables.values()])
        for (what, (_, due)), said in zip(tables.items(), found):
            with self.subTest(what):
                self.assertEqual(due, said)

    def test_each_row_but_the_start_is_missed_as_what_follows(self) -> None:
        found = self.said_of([[row for row in ROWS if row != left_out] for left_out in ROWS])
        for row, said in zip(ROWS, found):
            with self.subTest(row=row.hex()):
                self.assertEqual(NO_START if row == LIVE[0] else refused(f"not closed {row.hex()}"), said)

    def test_a_fault_of_the_file_is_told_with_its_offset(self) -> None:
        empty = certificate(bytes(32), [])
        exchanged = certificate(bytes(32), [live(0, 1), live(0, 2), live(0, 3), live(0, 0)])
        faults = [(b"VETCERT3", "magic"), (b"VETCERT1", "version 1"), (MAGIC, "cut at 8"), (exchanged, "order at 62"),
                  (empty[:40] + u4(1) + b"\0", "bad at 44"), (UNLISTED_CALL.read_bytes() + b"\0", "rest at 273")]
        found = self.rechecked([content for content, _ in faults])
        for (_, reason), said in zip(faults, found):
            with self.subTest(reason):
                self.assertEqual(refused(reason), said)

    def test_a_certificate_cut_at_each_byte_or_with_another_count_is_refused(self) -> None:
        whole = certificate(self.digest(), ROWS)
        begins = [44]
        for row in ROWS:
            begins.append(begins[-1] + len(row))

        def reason(cut: int) -> str:
            if cut < 44:
                return "magic" if cut < 8 else "cut at 8" if cut < 40 else "cut at 40"
            return f"cut at {max(begin for begin in begins if begin <= cut)}"

        changed = [(whole[:cut], reason(cut)) for cut in range(len(whole))]
        changed += [(whole[:40] + b"\xff" * 4 + whole[44:], f"cut at {len(whole)}"),
                    (whole + b"\0", f"rest at {len(whole)}"), (b"VETCERT1" + whole[8:], "version 1")]
        # A kind of row and a site that no certificate of this set has, one behind the last of each.
        changed += [(whole[:40] + u4(1) + bytes([21]) + ENTRY, "bad at 44"),
                    (whole[:40] + u4(1) + bytes([16, 4]) + u4(0, 0), "bad at 44")]
        found = self.rechecked([content for content, _ in changed])
        for number, ((_, due), said) in enumerate(zip(changed, found)):
            with self.subTest(number=number, reason=due):
                self.assertEqual(refused(due), said)

    def test_the_digest_of_the_certificate_comes_before_that_of_the_files(self) -> None:
        said, = self.rechecked([certificate(bytes([0x0F]) * 32, [])])
        self.assertEqual(refused(f"digest {'0f' * 32} {self.digest().hex()}"), said)

    def test_a_row_is_told_as_a_certificate_spells_it(self) -> None:
        # A component, a shared object, and an instruction of method 6 at address 7 for cause 3 whose run a handed
        # object began: the small app and its lists have none of them.
        spelled = {"0e0403020100": live(0x01020304, 0),
                   "100307000000": bytes([16, 3]) + u4(7),
                   "13030500000000000000060000000700000003": bytes([19, 3]) + u4(5, 0, 6, 7) + bytes([3])}
        found = self.said_of([[row] for row in spelled.values()])
        for text, said in zip(spelled, found):
            with self.subTest(text):
                self.assertEqual(refused(f"stranger {text}"), said)

    def test_each_file_has_its_length_in_front_in_the_digest(self) -> None:
        # The digest is compared before the files are judged, so that they may be any bytes but the manifest.
        parts = {"manifest.toml": b'package = "a"\ndex_files = 2\n', "layouts.toml": b"", "declaration.toml": b"dec",
                 "lists.toml": b"lists", "classes.dex": b"one", "classes2.dex": b""}
        for name, content in parts.items():
            (self.folder / "D" / name).write_bytes(content)
        said, = self.rechecked([certificate(bytes(32), [])])
        self.assertEqual(refused(f"digest {'00' * 32} {self.digest(*parts).hex()}"), said)


class SecondSetTest(SmallAppTest):
    """Certificates of tables by the second set, by which no register of the small app has a row: none is read."""

    ROWS = [REACHED, *LIVE]

    def lists(self, rows: int, *words: str) -> None:
        (self.folder / "D" / "lists.toml").write_text("\n".join([f"rows = {rows}", 'categories = ["a"]', *words, ""]))

    def setUp(self) -> None:
        super().setUp()
        self.lists(10, 'large = "cells"')

    def whole(self) -> bytes:
        return certificate(self.digest(), self.ROWS, SECOND)

    def test_nine_rows_follow_and_eight_are_too_few(self) -> None:
        for rows in 10, 9:
            self.lists(rows, 'large = "cells"')
            self.assertEqual((0, "clear\n"), self.certify(f"C{rows}"))
            self.assertEqual(self.whole(), (self.folder / f"C{rows}").read_bytes())
        self.lists(8, 'large = "cells"')
        self.assertEqual((2, "undecided 1\ntoo large: 8\n"), self.certify("C8"))
        self.assertFalse((self.folder / "C8").exists())

    def test_the_first_set_is_taken_where_its_rows_are_no_more_than_allowed(self) -> None:
        self.lists(11, 'large = "cells"')
        self.assertEqual((0, "clear\n"), self.certify())
        self.assertEqual(certificate(self.digest(), ROWS), (self.folder / "C").read_bytes())

    def test_without_the_word_the_app_is_too_large(self) -> None:
        self.lists(10)
        self.assertEqual((2, "undecided 1\ntoo large: 10\n"), self.certify())

    def test_either_kind_is_taken_where_the_lists_have_the_word(self) -> None:
        for rows in 8, 11:
            self.lists(rows, 'large = "cells"')
            found = self.rechecked([self.whole(), certificate(self.digest(), ROWS)])
            self.assertEqual([(0, "clear\n")] * 2, found)
            for number in range(2):
                shutil.rmtree(self.folder / str(number))

    def test_the_second_kind_is_refused_where_the_lists_do_not_have_the_word(self) -> None:
        for rows in 8, 11:
            self.lists(rows)
            found = self.rechecked([self.whole(), certificate(self.digest(), [], SECOND),
                                    certificate(self.digest(), STRANGERS, SECOND), certificate(self.digest(), ROWS)])
            self.assertEqual([refused("magic")] * 3 + [(0, "clear\n")], found)
            for number in range(4):
                shutil.rmtree(self.folder / str(number))

    def test_what_comes_before_it_is_told_before(self) -> None:
        # The bytes, then the digest, then the refusals of the files, and only then whether the lists ask for the kind.
        self.lists(11)
        whole = self.whole()
        found = self.rechecked([whole[:45], whole + b"\0", certificate(bytes(32), self.ROWS, SECOND)])
        self.assertEqual([refused("cut at 44"), refused(f"rest at {len(whole)}"),
                          refused(f"digest {'00' * 32} {self.digest().hex()}")], found)
        (self.folder / "D" / "classes.dex").write_bytes(b"")
        (self.folder / "again").write_bytes(self.whole())
        self.assertEqual((3, "refused classes.dex: magic\n"), answer(self.folder, "recheck", "D", "again"))

    def test_rows_of_one_set_are_checked_by_that_set(self) -> None:
        digest = self.digest()
        found = self.rechecked([certificate(digest, self.ROWS), certificate(digest, ROWS, SECOND)])
        # By the first rules the registers at the entry have rows; by the second they may.
        self.assertEqual([refused(f"not closed {POINTS[0].hex()}"), (0, "clear\n")], found)

    def test_each_row_but_the_start_is_missed_as_what_follows(self) -> None:
        digest = self.digest()
        found = self.rechecked([certificate(digest, [row for row in self.ROWS if row != left_out], SECOND)
                                for left_out in self.ROWS])
        for row, said in zip(self.ROWS, found):
            with self.subTest(row=row.hex()):
                self.assertEqual(NO_START if row == LIVE[0] else refused(f"not closed {row.hex()}"), said)

    def test_strangers_of_its_own_kinds_are_told(self) -> None:
        # Labels of the category 1, which the lists do not have, an object of a step that makes none, and no key.
        strange = [bytes([21]) + ENTRY + u4(0) + b"\1", bytes([16, 4]) + u4(0, 0), bytes([24, 2]) + u4(0) + b"\1",
                   bytes([25]) + ENTRY[:-4] + b"\0\1", bytes([23, 2]) + u4(0, 65535) + b"\0"]
        found = self.rechecked([certificate(self.digest(), [row], SECOND) for row in strange])
        for row, said in zip(strange, found):
            with self.subTest(row=row.hex()):
                self.assertEqual(refused(f"stranger {row.hex()}"), said)

    def test_labels_from_which_nothing_follows_may_be_there(self) -> None:
        # The body does not read register 0, and nothing holds the component.
        label, holds = bytes([21]) + ENTRY + u4(0) + b"\0", bytes([24, 2]) + u4(0) + b"\0"
        found = self.rechecked([certificate(self.digest(), [*self.ROWS, row], SECOND) for row in (label, holds)])
        self.assertEqual([(0, "clear\n")] * 2, found)

    def test_it_is_refused_when_cut_at_each_byte(self) -> None:
        whole = self.whole()
        begins = [44]
        for row in self.ROWS:
            begins.append(begins[-1] + len(row))

        def reason(cut: int) -> str:
            if cut < 44:
                return "magic" if cut < 8 else "cut at 8" if cut < 40 else "cut at 40"
            return f"cut at {max(begin for begin in begins if begin <= cut)}"

        found = self.rechecked([whole[:cut] for cut in range(len(whole))])
        for cut, said in enumerate(found):
            with self.subTest(cut=cut):
                self.assertEqual(refused(reason(cut)), said)

    def test_it_is_refused_when_a_byte_is_changed(self) -> None:
        whole = self.whole()

        def due(changed: bytes) -> tuple[int, str]:
            try:
                rows = list(Certificate(changed).rows())
            except CertificateFault as fault:
                return refused(fault.reason)
            if changed[8:40] != whole[8:40]:
                return refused(f"digest {changed[8:40].hex()} {whole[8:40].hex()}")
            # A changed row that is still one names what the app does not have, since all others are in the table.
            known = list(Certificate(whole).rows())
            number = next(number for number, row in enumerate(rows) if row not in known)
            begin = 44 + sum(len(row) for row in self.ROWS[:number])
            return refused(f"stranger {changed[begin:begin + len(self.ROWS[number])].hex()}")

        tries = [whole[:at] + bytes([(whole[at] + 1) % 256]) + whole[at + 1:] for at in range(len(whole))]
        for at, (changed, said) in enumerate(zip(tries, self.rechecked(tries))):
            with self.subTest(at=at):
                self.assertEqual(due(changed), said)


class GeneratedTest(FolderTest):
    """The rows of the generated app of the seed 1 and of one method besides, counted by hand kind by kind."""

    COUNTS = {Kind.LIVE: 8, Kind.REACHED: 12, Kind.POINTS: 33, Kind.TAINT: 38, Kind.CELL: 1, Kind.BACK: 1, Kind.CALLS: 1,
              Kind.CALLED_BY: 1, Kind.EFFECT: 4, Kind.METHOD_EFFECT: 4, Kind.EXIT_POINTS: 1, Kind.EXIT_TAINT: 2,
              Kind.USES: 2, Kind.ARRIVE: 1, Kind.HANDED: 1, Kind.HANDED_TAINT: 2}

    def put_app(self) -> None:
        folder = self.folder / "D"
        (folder / "manifest.toml").write_text('package = "gen"\ndex_files = 1\n'
                                              '[[component]]\nkind = "activity"\nclass = "Lgen/Main;"\n')
        for name in ("layouts.toml", "declaration.toml", "lists.toml"):
            shutil.copy(ANSWERS / name, folder / name)
        shutil.copy(ANSWERS / "made_1_1.dex", folder / "classes.dex")

    def test_as_many_rows_of_each_kind_follow(self) -> None:
        self.assertEqual((1, "flagged 1\ndevice_id -> network at Lgen/Main;->onCreate(Landroid/os/Bundle;)V @8\n"),
                         self.certify())
        rows = Certificate((self.folder / "C").read_bytes()).rows()
        self.assertEqual(self.COUNTS, Counter(Kind(row[0]) for row in rows))


if __name__ == "__main__":
    unittest.main()
