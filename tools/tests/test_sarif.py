"""A report as SARIF 2.1.0: valid, with locations that dexdump confirms, and with names of an attacker as names.

No package of Debian has the standard's JSON schema. So `data/sarif_subset.json` is a strict schema of the part that is
written, by hand from the standard; its properties and its required ones are held against `sarif_om`, classes that were
generated from the standard's schema.
"""
from __future__ import annotations

import json
import subprocess
import unittest
from dataclasses import replace
from typing import Any

import attr
import jsonschema
import sarif_om

from tests.support import DATA, EXAMPLES, ROOT, ToolCase, expected
from vet_tools.explanation import Explanation, explain
from vet_tools.report import Place, parse
from vet_tools.sarif import document, message
from vet_tools.way import Step

SUBSET = json.loads((DATA / "sarif_subset.json").read_text())


def valid(tree: dict[str, Any]) -> dict[str, Any]:
    """The tree as a reader of JSON gets it, when it is of the subset; its one run."""
    jsonschema.Draft7Validator.check_schema(SUBSET)
    again = json.loads(json.dumps(tree))
    jsonschema.Draft7Validator(SUBSET).validate(again)
    for result in again["runs"][0]["results"]:
        rules = again["runs"][0]["tool"]["driver"]["rules"]
        assert rules[result["ruleIndex"]]["id"] == result["ruleId"]
        # SARIF 2.1.0, 3.27.10: where the kind is not fail the level is none.
        assert (result["kind"] == "fail") == (result["level"] != "none")
    return dict(again["runs"][0])


class Subset(unittest.TestCase):
    def test_its_properties_are_those_of_the_standard_and_the_required_ones_too(self) -> None:
        for name, one in {**SUBSET["definitions"], "sarifLog": SUBSET}.items():
            standard = {field.metadata["schema_property_name"]: field.default is attr.NOTHING
                        for field in attr.fields(getattr(sarif_om, name[0].upper() + name[1:]))}
            self.assertLessEqual(set(one["properties"]) - {"$schema"}, set(standard), name)
            required = {field for field, needed in standard.items() if needed}
            self.assertLessEqual(required, set(one["required"]), name)

    def test_it_refuses_what_the_standard_does_not_have(self) -> None:
        for broken in ({"version": "2.1.0"}, {"version": "2.0.0", "runs": []}, {"version": "2.1.0", "runs": [{}]},
                       {"version": "2.1.0", "runs": [{"tool": {"driver": {"name": "vet"}}, "result": []}]}):
            with self.assertRaises(jsonschema.ValidationError):
                jsonschema.Draft7Validator(SUBSET).validate(broken)


class Results(ToolCase):
    def test_all_examples_are_valid_with_a_result_for_each_line(self) -> None:
        for name, (status, text) in expected().items():
            report = parse(text)
            run = valid(document(explain(report, EXAMPLES / name)))
            self.assertEqual(len(run["results"]), len(report.causes) + len(report.findings), name)
            self.assertEqual(run["invocations"], [{"executionSuccessful": True, "exitCode": status}])
            self.assertEqual(run["properties"]["report"], text)

    def test_a_finding_stands_at_the_bytes_of_its_instruction(self) -> None:
        # dexdump's first column is where in the file the instruction is; invoke-static has three code units.
        self.answer("device_id_posted", *expected()["device_id_posted"])
        done = self.run_tool("sarif", str(EXAMPLES / "device_id_posted"))
        self.assertEqual((done.returncode, done.stderr), (1, ""))
        result = valid(json.loads(done.stdout))["results"][0]
        dex = str(EXAMPLES / "device_id_posted" / "classes.dex")
        shown = subprocess.run(["dexdump", "-d", dex], capture_output=True, text=True, check=True).stdout
        line = next(line for line in shown.splitlines() if "|0004: " in line)
        self.assertEqual((result["ruleId"], result["kind"], result["level"]), ("undeclared-flow", "fail", "warning"))
        self.assertEqual(result["locations"], [{
            "logicalLocations": [{"fullyQualifiedName": "La/Main;->onCreate(Landroid/os/Bundle;)V",
                                  "kind": "function"}],
            "physicalLocation": {"artifactLocation": {"uri": "classes.dex", "uriBaseId": "APP"}, "region": {
                "byteOffset": int(line.split(":")[0], 16), "byteLength": 6,
                "snippet": {"text": "invoke-static {v0}, Lvendor/Net;->post(Ljava/lang/Object;)V"}}}}])

    def test_where_the_dex_file_has_a_source_line_the_result_stands_there(self) -> None:
        app = self.copied("unlisted_call", "lined")
        (app / "classes.dex").write_bytes((ROOT / "crates" / "dex_list" / "data" / "empty.dex").read_bytes())
        report = parse("undecided 1\nno summary: Le/Marked;->debugged(I)V @1\n")
        result = valid(document(explain(report, app)))["results"][0]
        self.assertEqual(result["locations"][0]["physicalLocation"], {
            "artifactLocation": {"uri": "e/Marked.java", "uriBaseId": "SOURCES"}, "region": {"startLine": 8}})
        self.assertEqual(result["relatedLocations"][0]["physicalLocation"]["artifactLocation"]["uri"], "classes.dex")

    def test_causes_are_open_and_those_of_forms_stand_in_the_form(self) -> None:
        run = valid(document(explain(parse(expected()["layout_class"][1]), EXAMPLES / "layout_class")))
        result = run["results"][0]
        self.assertEqual((result["ruleId"], result["kind"]), ("layout-class", "open"))
        self.assertEqual(result["locations"], [{
            "physicalLocation": {"artifactLocation": {"uri": "layouts.toml", "uriBaseId": "APP"}},
            "logicalLocations": [{"fullyQualifiedName": "La/Main;", "kind": "type"}]}])

    def test_an_app_that_is_too_large_and_one_that_is_refused_are_valid(self) -> None:
        large = valid(document(explain(parse("undecided 1\ntoo large: 200000\n"), EXAMPLES / "declared")))
        self.assertEqual([result["ruleId"] for result in large["results"]], ["too-large"])
        refused = valid(document(Explanation(parse("refused classes.dex: magic\n"))))
        self.assertEqual((refused["results"], refused["invocations"][0]["executionSuccessful"]), ([], False))
        self.assertIn("refused classes.dex: magic. The file does not begin as a DEX file of version 035.",
                      refused["invocations"][0]["toolExecutionNotifications"][0]["message"]["text"])

    def test_a_way_becomes_a_code_flow(self) -> None:
        found = explain(parse(expected()["device_id_posted"][1]), EXAMPLES / "device_id_posted")
        method = "La/Main;->onCreate(Landroid/os/Bundle;)V"
        way = (Step(Place(method, 0), "taken here"), Step(Place(method, 4), "posted"))
        found.findings = [replace(found.findings[0], way=way)]
        flow = valid(document(found))["results"][0]["codeFlows"][0]["threadFlows"][0]["locations"]
        self.assertEqual([step["location"]["message"]["text"] for step in flow], ["taken here", "posted"])
        self.assertEqual([step["executionOrder"] for step in flow], [1, 2])

    def test_names_of_an_attacker_make_no_link_and_no_placeholder(self) -> None:
        self.assertEqual(message("[x](http://e) {0}")["text"], "\\[x\\](http://e) {{0}}")
        run = valid(document(explain(parse("undecided 1\nno summary: L<script>xx;->onLocationChanged"
                                           "(Landroid/location/Location;)V @4\n"), self.hostile())))
        self.assertIn('calls void "><img.s.>.post(java.lang.Object)', run["results"][0]["message"]["text"])

    def test_a_file_is_written_whole_or_not_at_all(self) -> None:
        self.answer("declared", 0, "clear\n")
        path = self.folder / "out.sarif"
        done = self.run_tool("sarif", str(EXAMPLES / "declared"), "-o", str(path))
        self.assertEqual((done.returncode, done.stdout), (0, ""))
        self.assertEqual(valid(json.loads(path.read_text()))["results"], [])
        app = self.copied("declared", "kept")
        self.answer("kept", 0, "clear\n")
        done = self.run_tool("sarif", str(app), "-o", str(app / "lists.toml"))
        self.assertEqual((done.returncode, done.stdout), (70, ""))
        self.assertIn("is a file of the app; name another file after -o.", done.stderr)
        self.assertEqual((app / "lists.toml").read_bytes(), (EXAMPLES / "declared" / "lists.toml").read_bytes())


if __name__ == "__main__":
    unittest.main()
