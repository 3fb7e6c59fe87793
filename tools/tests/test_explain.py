"""What stands behind each line of a report: texts worked out by hand, and instructions against dexdump."""
from __future__ import annotations

import re
import tomllib
import unittest

from tests.support import DATA, EXAMPLES, ROOT, ToolCase, as_reported, dexdump, expected
from vet_tools.dex_code import Instruction, MethodRef
from vet_tools.explain import text
from vet_tools.explanation import explain
from vet_tools.java_names import java_method, java_type, split_types
from vet_tools.list_rows import rows
from vet_tools.report import parse


def golden() -> dict[str, str]:
    """The texts of data/explained.txt, each with its defined paragraphs put in."""
    defined: dict[str, str] = {}
    found: dict[str, str] = {}
    for kind, name, body in re.findall(r"^(define|example) (\w+)\n(.*?)^\.\n", (DATA / "explained.txt").read_text(),
                                       re.S | re.M):
        whole = re.sub(r"^\{(\w+)\}\n", lambda match: defined[match[1]], body, flags=re.M)
        (defined if kind == "define" else found)[name] = whole
    return found


class Examples(ToolCase):
    def test_each_example_is_explained_as_worked_out_by_hand(self) -> None:
        due, answers = golden(), expected()
        self.assertEqual(sorted(due), sorted(answers))
        for name, (_, answer) in answers.items():
            self.assertEqual(text(explain(parse(answer), EXAMPLES / name)), due[name], name)

    def test_each_instruction_is_the_one_that_dexdump_shows_there(self) -> None:
        shown = 0
        for name, (_, answer) in expected().items():
            found = explain(parse(answer), EXAMPLES / name)
            methods = dexdump(EXAMPLES / name / "classes.dex")
            for one in found.findings + found.causes:
                if one.place is not None:
                    assert one.instruction is not None
                    dumped = methods[one.place.method].instructions[one.place.pc]
                    self.assertEqual(one.instruction.text, as_reported(dumped), name)
                    shown += 1
        self.assertEqual(shown, 21)

    def test_vet_is_run_and_its_status_passed_on(self) -> None:
        for name in ("declared", "device_id_posted", "unlisted_call"):
            self.answer(name, *expected()[name])
            done = self.spawn("explain", str(EXAMPLES / name), "--workers", "2")
            self.assertEqual((done.stdout, done.returncode, done.stderr), (golden()[name], expected()[name][0], ""))

    def test_a_report_is_read_from_the_standard_input_and_vet_is_left_alone(self) -> None:
        status, answer = expected()["lifecycle"]
        done = self.run_tool("explain", str(EXAMPLES / "lifecycle"), "--report", "-", stdin=answer, vet="/nowhere")
        self.assertEqual((done.stdout, done.returncode, done.stderr), (golden()["lifecycle"], status, ""))


class Refusals(ToolCase):
    def test_a_refusal_says_what_is_wrong_and_what_to_do(self) -> None:
        self.answer("declared", 3, "refused manifest.toml: unknown packge\n")
        done = self.run_tool("explain", str(EXAMPLES / "declared"))
        self.assertEqual(done.returncode, 3)
        self.assertTrue(done.stdout.startswith("refused manifest.toml: unknown packge\n"))
        self.assertTrue(done.stdout.endswith("\nWhat is wrong: There is no such key.\n"
                                             "What to do: Remove it; often it is misspelt.\n"))


class Missing(ToolCase):
    def test_rows_alone_are_toml_that_names_the_missing_class_and_method(self) -> None:
        self.answer("unlisted_call", *expected()["unlisted_call"])
        done = self.run_tool("explain", str(EXAMPLES / "unlisted_call"), "--rows")
        self.assertEqual(done.returncode, 2)
        self.assertEqual(tomllib.loads(done.stdout), {
            "class": [{"name": "Lvendor/Odd;", "parents": ["Ljava/lang/Object;"]}],
            "method": [{"class": "Lvendor/Odd;", "name": "go", "proto": "()V", "static": True}]})

    def test_lines_are_put_together_by_class_and_method(self) -> None:
        # calls.dex of the repository's reader: three calls of onCreate; none of their classes is in these lists, but
        # Activity, which is listed with a default, and c.Calls, which is the app's own and extends Activity.
        app = self.copied("unlisted_call", "calls")
        (app / "classes.dex").write_bytes((ROOT / "crates" / "dex_list" / "data" / "calls.dex").read_bytes())
        place = "Lc/Calls;->onCreate(Landroid/os/Bundle;)V"
        report = parse(f"undecided 2\nno summary: {place} @0\nno summary: {place} @19\n")
        found = explain(report, app)
        self.assertEqual([(group.name, group.listed, group.count) for group in found.missing],
                         [("Landroid/app/Activity;", True, 1), ("Ljava/lang/Runnable;", False, 1)])
        self.assertEqual(tomllib.loads(rows(found)), {
            "class": [{"name": "Ljava/lang/Runnable;", "parents": ["Ljava/lang/Object;"]}],
            "method": [{"class": "Landroid/app/Activity;", "name": "onCreate", "proto": "(Landroid/os/Bundle;)V",
                        "puts": [[1, 0]]},
                       {"class": "Ljava/lang/Runnable;", "name": "run", "proto": "()V"}]})

    def test_a_call_that_names_an_app_class_is_missing_in_the_library_class_above(self) -> None:
        # examples/ordinary at 5: a.Main.getSystemService, which a.Main has from android.app.Activity alone.
        app = self.copied("ordinary", "above")
        (app / "lists.toml").write_text('rows = 1\ncategories = ["x"]\n[[class]]\nname = "Landroid/app/Activity;"\n')
        found = explain(parse("undecided 1\nno summary: La/Main;->onCreate(Landroid/os/Bundle;)V @5\n"), app)
        self.assertEqual([(group.name, group.listed, group.others) for group in found.missing],
                         [("Landroid/app/Activity;", True, ())])
        self.assertEqual(tomllib.loads(rows(found))["method"], [
            {"class": "Landroid/app/Activity;", "name": "getSystemService",
             "proto": "(Ljava/lang/String;)Ljava/lang/Object;", "result": "joined", "from": [0, 1], "puts": [[1, 0]]}])


class Hostile(ToolCase):
    def test_names_of_an_attacker_stay_names_and_rows_stay_toml(self) -> None:
        done = self.run_tool("explain", str(self.hostile()))
        self.assertEqual((done.returncode, done.stderr), (2, ""))
        self.assertIn('0004   invoke-static {v0}, L"><img/s/>;->post(Ljava/lang/Object;)V', done.stdout)
        toml = done.stdout.split("== rows for lists.toml ==\n")[1]
        self.assertEqual([row["class"] for row in tomllib.loads(toml)["method"]], ['L"><img/s/>;'])

    def test_a_file_that_androguard_cannot_read_leaves_the_report_as_it_is(self) -> None:
        app = self.copied("device_id_posted", "damaged")
        whole = (app / "classes.dex").read_bytes()
        (app / "classes.dex").write_bytes(whole[:52] + b"\xff\xff\xff\x7f" + whole[56:])
        self.answer("damaged", *expected()["device_id_posted"])
        done = self.run_tool("explain", str(app))
        self.assertEqual((done.returncode, done.stderr), (1, ""))
        self.assertIn("Not shown: classes.dex could not be read by androguard", done.stdout)
        self.assertTrue(done.stdout.endswith("\ndevice_id -> network at La/Main;->onCreate(Landroid/os/Bundle;)V @4\n"))

    def test_a_place_that_the_files_do_not_have_is_said(self) -> None:
        self.answer("declared", 1, "flagged 2\na -> b at La/Main;->onCreate(Landroid/os/Bundle;)V @1\n"
                    "a -> b at La/None;->go()V @0\n")
        done = self.run_tool("explain", str(EXAMPLES / "declared"))
        self.assertIn("    note   androguard reads no instruction at this address\n", done.stdout)
        self.assertIn("    note   the DEX files have no such method, or more than one that is printed so\n",
                      done.stdout)


class Words(unittest.TestCase):
    def test_types_and_methods_are_written_as_java_writes_them(self) -> None:
        self.assertEqual(java_type("[[Ljava/lang/String;"), "java.lang.String[][]")
        self.assertEqual(java_type("J"), "long")
        ref = MethodRef("La/B$C;", "go", ("[I", "Ljava/util/List;"), "V", False)
        self.assertEqual(java_method(ref), "void a.B$C.go(int[], java.util.List)")
        self.assertEqual(split_types("(J[[ILa/B;Z)La/C;"), (("J", "[[I", "La/B;", "Z"), "La/C;"))
        self.assertEqual(split_types("()V"), ((), "V"))

    def test_an_instruction_without_a_call_calls_nothing(self) -> None:
        self.assertIsNone(Instruction(0, "nop").called)


if __name__ == "__main__":
    unittest.main()
