"""Stories as they are read, and as ways from source to sink: `tools/why`, and ways in pages and SARIF."""
from __future__ import annotations

import json
import unittest

from tests.support import EXAMPLES, ToolCase, expected
from vet_tools.certificate import Node
from vet_tools.report import ReportFault
from vet_tools.story import Story, StoryLine, parse, parse_stories
from vet_tools.way_order import Turn, ordered

NAME = "device_id_posted"
PLACE = "La/Main;->onCreate(Landroid/os/Bundle;)V"
# The story of the example, by hand: event 1 of component 0 runs method 0, whose call at 0 uses row 12 of the lists and
# whose call at 4 uses row 13; the device id is category 0, the network category 2, the register of results 65,536.
NODE = "00000000000100000000000000{:02x}000000"
STORY = "".join(f"{line}\n" for line in (
    "story 10",
    "1 start: 0e0000000000",
    "2 rule 40 from 1: 0e0000000001",
    f"3 rule 40 from 2: 01{NODE.format(0)}",
    f"4 rule 1 from 3: 01{NODE.format(3)}",
    f"5 rule 27 from 3: 14{NODE.format(0)}000c000000",
    f"6 rule 1 from 4: 01{NODE.format(4)}",
    f"7 rule 35 from 5: 03{NODE.format(3)}000001000000",
    f"8 rule 27 from 6: 14{NODE.format(4)}000d000000",
    f"9 rule 3 from 7: 03{NODE.format(4)}000000000000",
    f"10 rule 31 from 8 9: 120002{NODE.format(4)}"))
# The same by the second set: the result of the call, made by the instruction at 0 of method 0, has an element of the
# category, so that it holds it, and goes into register 0.
RESULT = "040000000000000000"
BY_CELLS = "".join(f"{line}\n" for line in (
    "story 12",
    *STORY.split("\n")[1:7],
    f"7 rule 34 from 5: 02{NODE.format(3)}00000100{RESULT}",
    f"8 rule 35 from 5: 17{RESULT}0000000000",
    f"9 rule 27 from 6: 14{NODE.format(4)}000d000000",
    f"10 rule 3 from 7: 02{NODE.format(4)}00000000{RESULT}",
    f"11 rule 14 from 8: 18{RESULT}00",
    f"12 rule 31 from 9 10 11: 120002{NODE.format(4)}"))
WAY = f"""device_id -> network at {PLACE} @4
    what goes to network: argument 1 (v0)
   1. device_id is taken by vendor.Device.id()
        at   {PLACE} @0
        0000 invoke-static {{}}, Lvendor/Device;->id()Ljava/lang/String;
   2. device_id goes to network
        at   {PLACE} @4
        0004 invoke-static {{v0}}, Lvendor/Net;->post(Ljava/lang/Object;)V
"""


class Reading(unittest.TestCase):
    def test_a_story_is_read_line_by_line(self) -> None:
        story, = parse_stories(STORY)
        self.assertEqual(StoryLine(0, (), (14, 0, 0)), story.line(1))
        self.assertEqual(StoryLine(31, (8, 9), (18, 0, 2, 0, 0, 1, 0, 4)), story.line(10))
        story, = parse_stories(BY_CELLS)
        self.assertEqual(StoryLine(35, (5,), (23, 4, 0, 0, 0, 0)), story.line(8))

    def test_a_report_stands_before_its_stories(self) -> None:
        _, answer = expected()[NAME]
        one, stories = parse(answer + STORY)
        self.assertEqual((answer, 1), (str(one), len(stories)))
        self.assertEqual([], parse("clear\n")[1])
        with self.assertRaisesRegex(ReportFault, "1 findings and 2 stories"):
            parse(answer + STORY + STORY)

    def test_what_is_no_story_is_refused(self) -> None:
        for old, new in (("story 10", "story 11"), ("story 10", "story 9"), ("story 10", "story 0"),
                         ("2 rule 40 from 1", "2 rule 40 from 2"), ("2 rule 40 from 1", "2 rule 40 from 0"),
                         ("10 rule 31 from 8 9", "10 rule 31 from 1 2 3 8 9"), ("4 rule", "5 rule"),
                         ("10 rule 31", "10 rule 0"), ("10 rule 31", "10 rule 49"), ("10 rule 31", "10 rule 255"),
                         ("10 rule 31 from 8 9", "10 rule 31 from 8 4294967295"), ("10 rule 31", "10 rule 031"),
                         ("1 start", "1 begin"), ("0e0000000000\n", "0e00000000\n"), ("0e0000000000\n", "ff\n"),
                         ("0e0000000000\n", "0e000000000000\n"), ("from 8 9", "from 8  9"), ("from 8 9", "from 8 9 "),
                         (": 12", ": 13")):
            with self.subTest(old=old, new=new), self.assertRaises(ReportFault):
                parse_stories(STORY.replace(old, new))


def story_of(*premises: tuple[int, ...]) -> Story:
    """A story whose lines follow so from each other; what they say does not matter."""
    return Story(tuple(StoryLine(1 if ones else 0, ones, (14, number, 0)) for number, ones in enumerate(premises)))


class Order(unittest.TestCase):
    """Methods 0 and 1 in one context each; a step of method 0 at 7 enters method 1."""
    CALLER, CALLEE = (0, 0, 1), (5, 0, 7)

    def order(self, story: Story, *turns: tuple[int, Node, Node | None]) -> list[int]:
        return ordered(story, [Turn(*turn) for turn in turns])

    def test_a_method_is_entered_before_what_happens_in_it(self) -> None:
        enters, inside = Node(self.CALLER, 0, 7), Node(self.CALLEE, 1, 3)
        story = story_of((), (1,), (1,))
        self.assertEqual([3, 2], self.order(story, (2, inside, None), (3, enters, inside)))

    def test_what_the_call_rests_on_comes_before_it_even_where_it_is_in_the_method(self) -> None:
        enters, inside = Node(self.CALLER, 0, 7), Node(self.CALLEE, 1, 3)
        self.assertEqual([2, 3], self.order(story_of((), (1,), (2,)), (2, inside, None), (3, enters, inside)))

    def test_within_a_method_it_goes_by_address_and_each_stands_behind_its_premises(self) -> None:
        first, second, third = (Node(self.CALLER, 0, pc) for pc in (2, 4, 6))
        story = story_of((), (1,), (1,), (2,))
        self.assertEqual([2, 3, 4], self.order(story, (2, third, None), (3, first, None), (4, second, None)))
        self.assertEqual([2, 4, 3], self.order(story, (2, first, None), (3, third, None), (4, second, None)))

    def test_what_was_begun_in_a_method_goes_on_there(self) -> None:
        enters, inside, later = Node(self.CALLER, 0, 7), Node(self.CALLEE, 1, 3), Node(self.CALLER, 0, 9)
        story = story_of((), (1,), (1,), (1,))
        self.assertEqual([2, 4, 3], self.order(story, (2, enters, inside), (3, later, None), (4, inside, None)))

    def test_what_enters_a_method_from_one_instruction_stands_together(self) -> None:
        enters, inside, later = Node(self.CALLER, 0, 7), Node(self.CALLEE, 1, 3), Node(self.CALLER, 0, 9)
        story = story_of((), (1,), (1,), (1,))
        self.assertEqual([2, 4, 3], self.order(story, (2, enters, inside), (3, later, None), (4, enters, inside)))

    def test_a_line_stands_behind_that_on_which_it_is_said_to_rest(self) -> None:
        story = story_of((), (1,), (1,), (1,))
        turns = [Turn(number, Node(self.CALLER, 0, pc)) for number, pc in ((2, 2), (3, 6), (4, 4))]
        self.assertEqual([2, 4, 3], ordered(story, turns))
        self.assertEqual([2, 3, 4], ordered(story, turns, [(3, 4)]))


class Ways(ToolCase):
    def test_a_way_goes_from_where_the_value_is_taken_to_where_it_goes(self) -> None:
        status, answer = expected()[NAME]
        self.answer(NAME, status, answer + STORY)
        for words, told in (([], STORY), (["--story", "-"], STORY), (["--story", "-"], BY_CELLS)):
            done = self.run_tool("why", str(EXAMPLES / NAME), *words, stdin=answer + told)
            self.assertEqual((status, ""), (done.returncode, done.stderr))
            self.assertTrue(done.stdout.startswith("flagged 1\nEach way is a derivation"), done.stdout)
            self.assertTrue(done.stdout.endswith(f"\n\n{WAY}"), done.stdout)

    def test_where_nothing_is_found_there_is_no_way(self) -> None:
        self.answer("declared", 0, "clear\n")
        done = self.spawn("why", str(EXAMPLES / "declared"))
        self.assertEqual((0, "clear\n", ""), (done.returncode, done.stdout, done.stderr))

    def test_methods_that_the_files_do_not_have_are_told_as_no_way(self) -> None:
        status, answer = expected()[NAME]
        foreign = STORY.replace(NODE.format(0)[:26], NODE.format(0)[:18] + "ff000000")
        done = self.run_tool("why", str(EXAMPLES / NAME), "--story", "-", stdin=answer + foreign)
        self.assertEqual(status, done.returncode)
        self.assertIn("Its way could not be told", done.stdout)

    def test_sarif_and_page_have_the_way(self) -> None:
        status, answer = expected()[NAME]
        report = self.folder / "report.txt"
        report.write_text(answer)
        words = [str(EXAMPLES / NAME), "--ways", "--report", str(report)]
        page = self.folder / "app.html"
        for told in (STORY, BY_CELLS):
            self.answer(NAME, status, answer + told)
            done = self.run_tool("sarif", *words)
            self.assertEqual(status, done.returncode, done.stderr)
            flow, = json.loads(done.stdout)["runs"][0]["results"][0]["codeFlows"]
            steps = flow["threadFlows"][0]["locations"]
            self.assertEqual(["device_id is taken by vendor.Device.id()", "device_id goes to network"],
                             [step["location"]["message"]["text"] for step in steps])
            done = self.run_tool("page", *words, "-o", str(page))
            self.assertEqual(status, done.returncode, done.stderr)
            self.assertIn("device_id is taken", page.read_text())
        report.write_text(answer.replace("@4", "@5"))
        self.assertIn("is not the report", self.run_tool("sarif", *words).stderr)

    def vet_with(self, story: str) -> str:
        """A stand-in that prints the report, and does this where it is asked for stories."""
        status, answer = expected()[NAME]
        vet = self.folder / "vet_with"
        vet.write_text(f"#!/bin/sh\nprintf '%s' '{answer}'\nif [ $1 = story ]; then {story}; fi\nexit {status}\n")
        vet.chmod(0o755)
        return str(vet)

    def test_ways_are_told_where_vet_is_run_anyway(self) -> None:
        status, answer = expected()[NAME]
        vet = self.vet_with(f"printf '%s' '{STORY}'")
        report = self.folder / "report.txt"
        report.write_text(answer)
        for more, told in (([], True), (["--no-ways"], False), (["--ways"], True), (["--report", str(report)], False)):
            done = self.run_tool("sarif", str(EXAMPLES / NAME), *more, vet=vet)
            self.assertEqual((status, told), (done.returncode, "codeFlows" in done.stdout), more)

    def test_where_there_is_no_story_the_page_says_so(self) -> None:
        vet = self.vet_with("exit 7")
        page = self.folder / "app.html"
        done = self.run_tool("page", str(EXAMPLES / NAME), "-o", str(page), vet=vet)
        self.assertEqual(1, done.returncode, done.stderr)
        self.assertIn("Not shown: the ways of the findings, since vet gave no report (status 7)", page.read_text())
        done = self.run_tool("page", str(EXAMPLES / NAME), "--ways", "-o", str(page), vet=vet)
        self.assertEqual(7, done.returncode)


if __name__ == "__main__":
    unittest.main()
