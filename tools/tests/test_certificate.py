"""Certificates are read as docs/FORMATS.md says: against the cases of the project's own reader."""
from __future__ import annotations

import unittest
from pathlib import Path
from typing import Iterator

from vet_tools.certificate import Certificate, CertificateFault, Kind, NoCertificate, Node, node_of

CASES = Path(__file__).resolve().parents[2] / "crates" / "table_cases" / "data"


def answer(data: bytes) -> str:
    """`ok`, or the reason of the first fault in the words of the cases."""
    try:
        for _ in Certificate(data).rows():
            pass
    except CertificateFault as fault:
        return "version" if fault.reason == "version 1" else fault.reason
    return "ok"


def changed(name: str) -> Iterator[tuple[str, bytes, str]]:
    """The cases of NAME.txt over NAME.cert: `cut N`, the first N bytes, or `set N B`, byte N set to B."""
    whole = (CASES / f"{name}.cert").read_bytes()
    for line in (CASES / f"{name}.txt").read_text().splitlines():
        edit, due = line.split(": ")
        words = edit.split()
        data = whole[:int(words[1])]
        if words[0] == "set":
            data = data + bytes([int(words[2])]) + whole[int(words[1]) + 1:]
        yield line, data, due


class Reading(unittest.TestCase):
    def test_cut_and_changed_certificates_have_the_fault_that_the_project_tells(self) -> None:
        for name in ("each_kind", "each_cell_kind", "unlisted_call"):
            count = 0
            for line, data, due in changed(name):
                self.assertEqual(answer(data), due, f"{name}: {line}")
                count += 1
            self.assertGreater(count, 500)

    def test_spelled_bytes_have_the_fault_that_the_project_tells(self) -> None:
        for name in ("spelled.txt", "cells.txt"):
            for line in (CASES / name).read_text().splitlines():
                head, due = line.split(": ")
                self.assertEqual(answer(bytes.fromhex(head.removeprefix("hex").strip())), due, line[:120])

    def test_the_certificate_of_the_page_of_formats_has_its_row(self) -> None:
        data = b"VETCERT2" + bytes(32) + bytes.fromhex("01000000 0e 05000000 00")
        self.assertEqual(list(Certificate(data).rows()), [(Kind.LIVE, 5, 0)])

    def test_each_kind_is_read_once(self) -> None:
        found = [[row[0] for row in Certificate((CASES / f"{name}.cert").read_bytes()).rows()]
                 for name in ("each_kind", "each_cell_kind")]
        self.assertEqual(found[0], list(range(1, 21)))
        self.assertEqual(found[1], [1, 2, 4, 5, 6, 8, 9, 12, 14, 16, 18, 19, 20, 21, 22, 23, 24, 25])
        self.assertEqual(sorted({*found[0], *found[1]}), [kind.value for kind in Kind])

    def test_the_unlisted_call_stands_without_summary_at_the_first_instruction(self) -> None:
        # examples/unlisted_call: onCreate, event 1 of component 0, is method 0 and stands at address 0 for cause 1.
        rows = list(Certificate((CASES / "unlisted_call.cert").read_bytes()).rows())
        unknown = [row for row in rows if row[0] == Kind.UNKNOWN]
        self.assertEqual(len(unknown), 1)
        node, rest = node_of(unknown[0][1:])
        self.assertEqual(node, Node((0, 0, 1), 0, 0))
        self.assertEqual(rest, (1,))

    def test_a_file_that_is_not_there_is_said_in_one_sentence(self) -> None:
        with self.assertRaises(NoCertificate) as told:
            Certificate.read("/nowhere/at/all.cert")
        self.assertIn("could not be read (No such file or directory)", str(told.exception))


if __name__ == "__main__":
    unittest.main()
