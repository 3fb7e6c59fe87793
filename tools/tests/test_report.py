"""Reports are read exactly as docs/FORMATS.md says."""
from __future__ import annotations

import os
import subprocess
import unittest

from tests.support import TOOLS, ToolCase, expected
from vet_tools.report import Cause, CauseKind, Finding, Outcome, Place, ReportFault, parse, unprinted
from vet_tools.shown import printed

PLACE = "La/Main;->go()V @4"


class Reading(unittest.TestCase):
    def test_the_answers_of_all_examples_are_read_and_written_back_alike(self) -> None:
        for name, (status, text) in expected().items():
            report = parse(text)
            self.assertEqual((report.outcome.status, str(report)), (status, text), name)

    def test_a_report_with_all_causes_is_read(self) -> None:
        report = parse(f"undecided 13\nno summary: {PLACE}\nnative: {PLACE}\nreflective: {PLACE}\nprovider: La/P;\n"
                       f"layout class: La/V;\ntoo large: 4000000\nhidden: La/B;->go()V\ninterface code: La/I;->go()V\n"
                       f"platform class: Landroid/A;\nunlisted class: Lb/B;\nlibrary static: {PLACE}\n"
                       f"click: La/S;->go(Landroid/view/View;)V\nnamed class: La/N;\nsms -> log at {PLACE}\n")
        self.assertEqual([cause.kind for cause in report.causes], list(CauseKind))
        self.assertEqual(report.causes[0], Cause(CauseKind.NO_SUMMARY, Place("La/Main;->go()V", 4), PLACE))
        self.assertEqual(report.causes[5], Cause(CauseKind.TOO_LARGE, None, "4000000"))
        self.assertEqual(report.causes[6], Cause(CauseKind.HIDDEN, None, "La/B;->go()V"))
        self.assertEqual(report.causes[10], Cause(CauseKind.LIBRARY_STATIC, Place("La/Main;->go()V", 4), PLACE))
        self.assertEqual(report.findings, (Finding("sms", "log", Place("La/Main;->go()V", 4)),))

    def test_a_refusal_has_its_part_and_its_reason(self) -> None:
        report = parse("refused classes2.dex: index in method_ids row 3\n")
        self.assertEqual((report.outcome, report.part, report.reason),
                         (Outcome.REFUSED, "classes2.dex", "index in method_ids row 3"))

    def test_what_is_no_report_is_refused(self) -> None:
        for text in ("", "clear", "clear \n", "Clear\n", "clear\n\n", "clear\nclear\n", "flagged 0\n", "flagged 01\n",
                     "flagged 1\n", f"flagged 2\na -> b at {PLACE}\n", f"flagged 1\nno summary: {PLACE}\n",
                     "flagged 1\na -> b at La/Main;->go()V @-4\n", "flagged 1\na -> b at nowhere\n",
                     f"undecided 1\na -> b at {PLACE}\n", f"undecided 1\nodd: {PLACE}\n",
                     f"undecided 2\nnative: {PLACE}\nno summary: {PLACE}\n",
                     f"undecided 1\na -> b at {PLACE}\nnative: {PLACE}\n", "undecided 1\ntoo large: many\n",
                     "undecided 1\nprovider: La/\x1b[2J;\n", "unknown command or argument\n", "refused x\n"):
            with self.assertRaises(ReportFault, msg=repr(text)):
                parse(text)

    def test_a_fault_shows_no_control_bytes(self) -> None:
        with self.assertRaises(ReportFault) as told:
            parse("\x1b[2Jclear\n")
        self.assertIn("'\\x1b[2Jclear'", str(told.exception))

    def test_names_are_printed_as_the_program_prints_them(self) -> None:
        # docs/FORMATS.md: what is no visible ASCII character, and the backslash, is \x and two hexadecimal digits.
        self.assertEqual(printed(b"La/\xc3\xa9 \\\x1b;"), "La/\\xc3\\xa9\\x20\\x5c\\x1b;")
        self.assertEqual(unprinted("La/\\xc3\\xa9\\x20\\x5c\\x1b;"), b"La/\xc3\xa9 \\\x1b;")


class Asking(ToolCase):
    def test_an_apk_a_file_and_nothing_are_told_apart_in_one_sentence(self) -> None:
        apk = self.folder / "app.apk"
        apk.write_bytes(b"PK")
        for words, due in ((str(apk), "is an APK: tools/unpack makes its folder"),
                           (str(self.vet), "is a file and no folder"), (str(self.folder / "no"), "There is no folder")):
            done = self.run_tool("explain", words)
            self.assertEqual((done.returncode, done.stdout), (70, ""))
            self.assertIn(due, done.stderr)
            self.assertEqual(done.stderr.count("\n"), 1)

    def test_a_status_without_a_report_is_passed_on(self) -> None:
        app = self.copied("declared", "unanswered")
        done = self.run_tool("explain", str(app))
        self.assertEqual((done.returncode, done.stdout), (4, ""))
        self.assertIn("vet gave no report (status 4); it said 'unknown command or argument'", done.stderr)

    def test_a_status_that_does_not_go_with_the_report_is_refused(self) -> None:
        app = self.copied("declared", "crossed")
        self.answer("crossed", 2, "clear\n")
        done = self.run_tool("explain", str(app))
        self.assertEqual((done.returncode, done.stdout), (70, ""))
        self.assertIn("these do not go together", done.stderr)

    def test_a_program_that_is_not_there_is_said(self) -> None:
        done = self.run_tool("explain", str(self.copied("declared", "app")), vet="/nowhere/vet")
        self.assertEqual((done.returncode, done.stdout), (70, ""))
        self.assertIn("'/nowhere/vet' could not be started (No such file or directory)", done.stderr)

    def test_a_program_that_is_killed_gave_no_report(self) -> None:
        killed = self.folder / "killed"
        killed.write_text("#!/bin/sh\nkill -9 $$\n")
        killed.chmod(0o755)
        done = self.run_tool("explain", str(self.copied("declared", "app")), vet=str(killed))
        self.assertEqual((done.returncode, done.stdout), (70, ""))
        self.assertIn("vet was ended by the signal 9 and gave no report", done.stderr)

    def test_words_that_are_no_command_end_with_none_of_the_answers(self) -> None:
        for tool, *words in (("explain",), ("page", "app"), ("sarif", "app", "--workers", "17"), ("coverage", "app"),
                             ("unpack", "app.apk"), ("make_lists", "lists"), ("reviewer", "--port", "none", "office")):
            done = self.run_tool(tool, *words)
            self.assertEqual((done.returncode, done.stdout), (4, ""), tool)
            self.assertIn(f"tools/{tool.replace('_', '-')}: error: ", done.stderr)

    def test_where_androguard_is_missing_the_package_setup_is_named(self) -> None:
        # With -S Python does not look where Debian's packages of Python are.
        app = self.copied("declared", "app")
        self.answer("app", 1, "flagged 1\na -> b at La/Main;->onCreate(Landroid/os/Bundle;)V @4\n")
        for tool, words, due in (("unpack", ("x.apk", str(self.folder / "made")), 1), ("explain", (str(app),), 70)):
            done = subprocess.run(["/usr/bin/python3", "-S", str(TOOLS / tool), *words], capture_output=True, text=True,
                                  check=False, env={**os.environ, "VET": str(self.vet)})
            self.assertEqual((done.returncode, done.stdout, done.stderr),
                             (due, "", f"tools/{tool}: Python's androguard is not there; tools/setup installs what the "
                              "tools stand on.\n"))


if __name__ == "__main__":
    unittest.main()
