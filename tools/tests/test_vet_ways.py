"""The ways that `tools/why` tells of the examples, from the stories that the program prints."""
from __future__ import annotations

import json
import shutil
import unittest
from pathlib import Path

from tests.program import answer, at_once, by_cells, program
from tests.support import DATA, EXAMPLES, FolderCase, ToolCase, expected
from vet_tools import story
from vet_tools.explanation import Explanation, explain
from vet_tools.why import way_text

LONG = "many_methods"


def told(name: str, folder: Path = EXAMPLES) -> Explanation:
    """An example explained with the stories of its findings."""
    status, text = answer(folder, "story", name)
    report, stories = story.parse(text)
    assert report.outcome.status == status
    return explain(report, folder / name, stories)


def told_by_cells(name: str, folder: Path) -> Explanation:
    """The same of a copy in the folder, by the second set of rules."""
    shutil.copytree(EXAMPLES / name, folder / name)
    by_cells(folder, name)
    return told(name, folder)


def due(file: str = "ways.txt") -> dict[str, list[str]]:
    """The steps of the one finding of each example but the longest, by hand from the sources: `PLACE: WHAT`."""
    blocks = (DATA / file).read_text().strip().split("\n\n")
    return {lines[0]: lines[1:] for lines in (block.split("\n") for block in blocks)}


class Ways(unittest.TestCase):
    def test_each_example_is_told_as_its_sources_have_it(self) -> None:
        found = {name for name, (_, text) in expected().items() if " -> " in text}
        self.assertEqual(found - {LONG}, set(due()))
        for (name, steps), one in zip(due().items(), at_once(told, due())):
            with self.subTest(name):
                finding, = one.findings
                self.assertEqual(steps, [f"{step.where}: {step.says}" for step in finding.way])
                self.assertEqual([], one.faults)

    def test_what_goes_from_call_to_call_is_told_as_one_step(self) -> None:
        # The device id goes through 200 methods, step0 to step199; step5, step15 and so on put it into a box of their
        # own, take it out again, and pass that on. So there are 200 calls, and 20 times a put and a get.
        finding, = told(LONG).findings
        self.assertEqual(1 + 200 + 20 * 2 + 1, len(finding.way))
        self.assertEqual(200, sum(step.passes for step in finding.way))
        lines = way_text(finding.way)
        heads = [line for line in lines if line[:4].strip().isdigit()]
        self.assertEqual(1 + 21 + 20 * 2 + 1, len(heads))
        self.assertEqual("   2. device_id is passed to a.part0.Id0.step0(java.lang.Object), and on by 5 calls:",
                         heads[1])
        self.assertEqual("  63. device_id goes to network", heads[-1])


class WaysByCells(FolderCase):
    def test_each_example_is_told_so_by_the_second_set_too(self) -> None:
        steps_of = {**due(), **due("ways_by_cells.txt")}
        found = at_once(lambda name: told_by_cells(name, self.folder), [*steps_of, LONG])
        for (name, steps), one in zip(steps_of.items(), found):
            with self.subTest(name):
                finding, = one.findings
                self.assertEqual(steps, [f"{step.where}: {step.says}" for step in finding.way])
                self.assertEqual([], one.faults)
        finding, = found[-1].findings
        self.assertEqual(1 + 200 + 20 * 2 + 1, len(finding.way))
        self.assertTrue(all(step.essential for step in finding.way if step.says.startswith("device_id ")))


class Hostile(ToolCase):
    def test_names_of_an_attacker_are_text_in_a_way(self) -> None:
        app = self.copied("location_listener", "hostile")
        dex = (app / "classes.dex").read_bytes()
        self.assertEqual(1, dex.count(b"La/Listener;\x00"))
        (app / "classes.dex").write_bytes(dex.replace(b"La/Listener;\x00", b"L<script>x{;\x00"))
        place = "L<script>x{;->onLocationChanged(Landroid/location/Location;)V"
        told = "the library calls <script>x{.onLocationChanged(android.location.Location) with location"
        vet = str(program())
        done = self.run_tool("why", str(app), vet=vet)
        self.assertEqual(1, done.returncode, done.stderr)
        self.assertIn(f"{told}\n        in   {place}\n", done.stdout)
        done = self.run_tool("sarif", str(app), "--ways", vet=vet)
        steps = json.loads(done.stdout)["runs"][0]["results"][0]["codeFlows"][0]["threadFlows"][0]["locations"]
        self.assertIn(told.replace("{", "{{"), [step["location"]["message"]["text"] for step in steps])
        page = Path(self.folder) / "app.html"
        done = self.run_tool("page", str(app), "--ways", "-o", str(page), vet=vet)
        self.assertEqual(1, done.returncode, done.stderr)
        self.assertNotIn("<script", page.read_text())
        self.assertIn(told.replace("<", "&lt;").replace(">", "&gt;"), page.read_text())


if __name__ == "__main__":
    unittest.main()
