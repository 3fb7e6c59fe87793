"""docs/openapi.json says what docs/DESK.md says, and what the desk replies."""

from __future__ import annotations

import json
import re
import unittest

import jsonschema

from tests.desk_at_work import TOP, DeskAtWork, submission
from tests.desk_description import Description
from tests.office_day import go_through


def rows(head: str) -> list[list[str]]:
    """The rows of the table of docs/DESK.md that begins with this line."""
    text = (TOP / "docs/DESK.md").read_text().split(head + "\n", 1)[1]
    lines = text.split("\n\n", 1)[0].splitlines()[1:]
    return [[cell.strip() for cell in line.strip("|").split("|")] for line in lines]


class Pages(unittest.TestCase):
    """The description beside the page of the desk."""

    def setUp(self) -> None:
        self.description = Description()
        self.operations = self.description.operations()

    def errors(self, operation: dict[str, object]) -> set[tuple[int, str]]:
        found = set()
        for status, reply in operation["responses"].items():
            schema = reply["content"].get("application/json", {"schema": {}})["schema"]
            error = schema.get("properties", {}).get("error", {"enum": []})
            found |= {(int(status), text) for text in error.get("enum", [error.get("pattern")])}
        return found

    def test_it_has_the_requests_of_the_page_and_no_other_ones(self) -> None:
        due: dict[tuple[str, str], set[str]] = {}
        statuses: dict[tuple[str, str], set[str]] = {}
        for who, request, _, reply in rows("| who | request | what it does | reply |"):
            method, path = request.strip("`").replace("REF", "{reference}").split()
            due.setdefault((method, path), set()).add(who)
            statuses.setdefault((method, path), set()).update(re.findall(r"\b20[01]\b", reply))
        self.assertEqual({name: set(operation["tags"]) for name, operation in self.operations.items()}, due)
        for name, operation in self.operations.items():
            self.assertEqual({status for status in operation["responses"] if status < "300"}, statuses[name], name)

    def test_it_has_the_refusals_of_the_page_and_no_other_ones(self) -> None:
        due = set()
        for status, texts, _, _ in rows("| status | text | why | what to do |"):
            due |= {(int(status), text) for text in re.findall("`([^`]+)`", texts)}
        found = set().union(*(self.errors(operation) for operation in self.operations.values()))
        self.assertLessEqual({(404, "no route"), (405, "no such method"), (422, "field NAME")}, due)
        plain = {(status, text) for status, text in found if not text.startswith(("^", "field "))}
        forms = [re.compile(text) for _, text in found if text.startswith("^")]
        for status, text in due - plain - {(404, "no route"), (405, "no such method"), (422, "field NAME")}:
            said = text.replace("D", "130") if text.startswith("too late") else text
            self.assertTrue(any(form.fullmatch(said) for form in forms), text)
        self.assertLessEqual(plain, due)
        fields = {text.removeprefix("field ") for status, text in found if text.startswith("field ")}
        due = {"declaration", "developer", "dex", "layouts", "manifest", "reference", "ruling", "text"}
        self.assertEqual(fields, due)
        for status, text in ((404, "no route"), (405, "no such method")):
            self.assertIn(f"{status} `{text}`", self.description.form["info"]["description"])

    def test_it_has_the_limits_of_the_page(self) -> None:
        limits = dict(rows("| what | limit |"))
        schemas = self.description.form["components"]["schemas"]
        self.assertEqual(limits["a reference or a name"], "1 to 64 of `A-Z a-z 0-9 . _ -`")
        self.assertEqual((schemas["Name"]["minLength"], schemas["Name"]["maxLength"]), (1, 64))
        self.assertEqual(limits["DEX files of an app"], "1 to 16")
        dex = schemas["Submission"]["properties"]["dex"]
        self.assertEqual((dex["minItems"], dex["maxItems"]), (1, 16))
        self.assertEqual(limits["the text of an appeal"], "1 to 4,000 bytes")
        self.assertEqual(schemas["AppealText"]["properties"]["text"]["maxLength"], 4000)

    def test_each_reference_leads_somewhere_and_each_schema_is_one(self) -> None:
        for operation in self.operations.values():
            for reply in operation["responses"].values():
                self.assertTrue(reply["description"])
                for content in reply["content"].values():
                    jsonschema.Draft4Validator.check_schema(content["schema"])
            for content in operation.get("requestBody", {"content": {}})["content"].values():
                jsonschema.Draft4Validator.check_schema(content["schema"])
        names = [operation["operationId"] for operation in self.operations.values()]
        self.assertEqual(len(names), len(set(names)))
        for path, page in self.description.form["paths"].items():
            named = {one["name"] for one in page.get("parameters", [])}
            self.assertEqual(named, set(re.findall(r"\{(\w+)\}", path)))


class Replies(unittest.TestCase):
    """The description beside a desk at work."""

    def test_the_replies_of_a_day_are_those_due_and_are_described(self) -> None:
        desk = DeskAtWork()
        self.addCleanup(desk.end)
        go_through(self, desk.ask)

    def test_a_submission_is_described_and_a_reply_of_another_form_is_not(self) -> None:
        description = Description()
        schema = description.operation("POST", "/cases")["requestBody"]["content"]["application/json"]["schema"]
        jsonschema.validate(json.loads(submission("click", "r1")), schema)
        for status, body in ((200, b'{"reference":"r1"}'), (200, b'{"reference":"r1","state":"gone"}'),
                             (409, b'{"error":"nothing queued"}')):
            with self.assertRaises(AssertionError):
                description.check("POST", "/cases", status, "application/json", body)
        with self.assertRaises(AssertionError):
            description.check("POST", "/cases", 418, "application/json", b"{}")


if __name__ == "__main__":
    unittest.main()
