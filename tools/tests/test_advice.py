"""The words of advice are those of docs/REPORT.md."""
from __future__ import annotations

import unittest
from pathlib import Path

from vet_tools import advice
from vet_tools.report import CauseKind, Outcome, parse

PAGE = (Path(__file__).resolve().parents[2] / "docs" / "REPORT.md").read_text()
PLAIN = PAGE.replace("`", "").replace("\\", "")


def cells(head: str) -> list[str]:
    """The cells of the table row that begins with these words, without backquotes."""
    rows = [line for line in PLAIN.splitlines() if line.startswith(f"| {head}")]
    assert len(rows) == 1, f"{head}: {len(rows)} rows"
    return [cell.strip() for cell in rows[0].strip("|").split(" | ")]


class Words(unittest.TestCase):
    def test_each_cause_has_the_words_of_its_row(self) -> None:
        for kind in CauseKind:
            row = cells(f"{kind.value}: ")
            one = advice.CAUSES[kind]
            self.assertEqual([one.says, one.developer, one.reviewer], row[1:])

    def test_a_finding_has_the_words_of_its_section(self) -> None:
        self.assertIn(f"- *Developer.* {advice.FINDING.developer}\n", PLAIN)
        self.assertIn(f"- *Reviewer.* {advice.FINDING.reviewer}\n", PLAIN)

    def test_each_outcome_has_the_words_of_its_row(self) -> None:
        heads = {Outcome.CLEAR: "clear (0)", Outcome.FLAGGED: "flagged N (1)", Outcome.UNDECIDED: "undecided N (2)",
                 Outcome.REFUSED: "refused PART: REASON (3)"}
        for outcome, head in heads.items():
            row, one = cells(head), advice.OUTCOMES[outcome]
            self.assertEqual(f"{one.developer} {one.reviewer}", row[2])
            says = row[1].replace("N undeclared", "Undeclared").replace("does N things", "does things")
            self.assertEqual(one.says, says)

    def test_each_refusal_has_the_words_of_its_row(self) -> None:
        section = PLAIN.split("## The refusals")[1].split("A FAULT names")[0]
        rows = [[cell.strip() for cell in line.strip("|").split(" | ")] for line in section.splitlines()
                if line.startswith("| ") and not line.startswith("| REASON")]
        self.assertEqual(len(rows), 22)
        last = ""
        for reason, wrong, due in rows:
            due = last if due == "The same." else due
            last = due
            part = "app" if reason == "too many WHAT" else "lists.toml"
            found = advice.refusal(parse(f"refused {part}: {reason}\n"))
            self.assertIsNotNone(found, reason)
            assert found is not None
            self.assertEqual((found.wrong, found.do), (wrong, due), reason)

    def test_each_fault_of_code_has_the_words_of_its_row(self) -> None:
        section = PLAIN.split("A FAULT names")[1].split("## A refused")[0]
        rows = [[cell.strip() for cell in line.strip("|").split(" | ")] for line in section.splitlines()
                if line.startswith("| ") and not line.startswith("| FAULT")]
        self.assertEqual(len(rows), 8)
        for fault, wrong in rows:
            reason = f"code La/Main;->go()V: {fault.replace(' N', ' 7')}"
            found = advice.refusal(parse(f"refused app: {reason}\n"))
            assert found is not None
            self.assertEqual(found.wrong, f"The method's code is not well formed: {wrong}.")


if __name__ == "__main__":
    unittest.main()
