"""Code is read as dexdump reads it, and a damaged or misleading file is said to be one."""
from __future__ import annotations

import re
import unittest
from pathlib import Path

from tests.support import EXAMPLES, ROOT, ToolCase, as_reported, certificate, dexdump, expected
from vet_tools.certificate import Certificate, Kind, node_of
from vet_tools.dex_code import DexCode, DexFault, MethodRef, SourceLine
from vet_tools.report import Place, parse
from vet_tools.shown import printed

REFERRING = re.compile(r"(invoke|const-string|const-class|check-cast|instance-of|new-|filled-new|[is](get|put))")


def files() -> list[Path]:
    """All DEX files of the repository that dexdump takes for whole."""
    return sorted(EXAMPLES.glob("*/classes.dex")) + sorted(
        path for path in (ROOT / "crates" / "dex_list" / "data").glob("*.dex") if not path.name.startswith("hostile"))


class AgainstDexdump(unittest.TestCase):
    def test_each_instruction_of_each_file_stands_where_dexdump_has_it(self) -> None:
        compared = referring = 0
        for path in files():
            code = DexCode.read([path])
            for text, dumped in dexdump(path).items():
                method = code.method(printed(text.encode()))
                assert method is not None, text
                ours = method.instructions()
                self.assertEqual(sorted(ours), sorted(dumped.instructions), f"{path} {text}")
                for pc, line in dumped.instructions.items():
                    mine = ours[pc].text
                    if "-data (" in line:
                        continue
                    self.assertEqual(mine.split()[0], line.split()[0], f"{path} {text} {pc}")
                    compared += 1
                    if REFERRING.match(line) and not line.startswith("const-string"):
                        self.assertEqual(mine, printed(as_reported(line).encode(), " "), f"{path} {text} {pc}")
                        referring += 1
        self.assertGreater(compared, 2500)
        self.assertGreater(referring, 800)

    def test_source_lines_are_those_of_dexdump(self) -> None:
        path = ROOT / "crates" / "dex_list" / "data" / "empty.dex"
        method = DexCode.read([path]).method("Le/Marked;->debugged(I)V")
        dumped = dexdump(path)["Le/Marked;->debugged(I)V"]
        assert method is not None
        self.assertEqual(dumped.lines, {0: 7, 1: 8})
        self.assertEqual({pc: method.line_at(pc) for pc in (0, 1)},
                         {0: SourceLine("Marked.java", 7), 1: SourceLine("Marked.java", 8)})

    def test_a_string_is_shown_in_visible_ascii(self) -> None:
        code = DexCode.read([ROOT / "crates" / "dex_list" / "data" / "strings.dex"])
        texts = [one.text for method in code.methods for one in method.instructions().values()]
        self.assertIn('const-string v0, "caf\\xc3\\xa9"', texts)
        self.assertTrue(all(32 <= ord(sign) <= 126 for text in texts for sign in text))
        self.assertTrue(any(text.endswith('long "..') or text.endswith('"..') for text in texts))


class Numbers(unittest.TestCase):
    def test_methods_are_numbered_as_certificates_number_them(self) -> None:
        # The places of a certificate, by these numbers, are those of the report: where nothing is declared, all
        # arrivals are findings, and each place without a summary or native is a cause.
        for name in ("unlisted_call", "native_method", "device_id_posted", "click", "click_listener",
                     "location_listener", "application", "other_box"):
            code = DexCode.read([EXAMPLES / name / "classes.dex"])
            places: set[Place] = set()
            for row in Certificate.read(str(certificate(name))).rows():
                if row[0] in (Kind.UNKNOWN, Kind.ARRIVE):
                    node, _ = node_of(row[1 if row[0] == Kind.UNKNOWN else 3:])
                    places.add(Place(str(code.numbered[node.method]), node.pc))
            report = parse(expected()[name][1])
            due = {cause.place for cause in report.causes} | {finding.place for finding in report.findings}
            self.assertEqual(places, due, name)

    def test_a_method_reference_counts_positions_and_wide_arguments_once(self) -> None:
        code = DexCode.read([ROOT / "crates" / "dex_list" / "data" / "calls.dex"])
        calls = [one.called for method in code.methods for one in method.instructions().values() if one.called]
        eight = next(ref for ref in calls if ref.name == "eight")
        self.assertEqual(eight, MethodRef("Lc/Calls;", "eight", ("J", "I", "J", "I", "I", "I"), "V", True))
        self.assertEqual(eight.positions, 6)


class Damaged(ToolCase):
    def fault_of(self, data: bytes) -> str:
        path = self.folder / "classes.dex"
        path.write_bytes(data)
        with self.assertRaises(DexFault) as told:
            DexCode.read([path])
        return str(told.exception)

    def test_a_damaged_file_is_a_fault_in_one_sentence(self) -> None:
        whole = (EXAMPLES / "ordinary" / "classes.dex").read_bytes()
        far = whole[:52] + b"\xff\xff\xff\x7f" + whole[56:]
        for data in (b"", b"dex\n035\x00", whole[:200], far, b"PK" + whole[2:]):
            self.assertRegex(self.fault_of(data), r"^classes.dex could not be read by androguard \(\w+\), "
                             r"so what it holds is not shown\.$")

    def test_a_map_that_does_not_fit_the_header_is_not_gone_by(self) -> None:
        # The header's method_ids (offset 88) says one method more than the map: vet goes by it, androguard by the map.
        whole = (EXAMPLES / "ordinary" / "classes.dex").read_bytes()
        count = int.from_bytes(whole[88:92], "little")
        changed = whole[:88] + (count + 1).to_bytes(4, "little") + whole[92:]
        self.assertIn("The map of classes.dex does not fit its header", self.fault_of(changed))

    def test_annotations_are_not_looked_at(self) -> None:
        # The first class definition's annotations_off (its bytes 20 to 23) leads nowhere; vet does not go there either.
        whole = (ROOT / "crates" / "dex_list" / "data" / "empty.dex").read_bytes()
        row = int.from_bytes(whole[100:104], "little") + 20
        path = self.folder / "classes.dex"
        path.write_bytes(whole[:row] + b"\xff\xff\xff\x7f" + whole[row + 4:])
        self.assertIsNotNone(DexCode.read([path]).method("Le/Marked;->debugged(I)V"))

    def test_a_wrong_checksum_does_not_matter(self) -> None:
        whole = (EXAMPLES / "ordinary" / "classes.dex").read_bytes()
        path = self.folder / "classes.dex"
        path.write_bytes(whole[:8] + b"\x00\x00\x00\x00" + whole[12:])
        self.assertEqual(len(DexCode.read([path]).methods), 1)


if __name__ == "__main__":
    unittest.main()
