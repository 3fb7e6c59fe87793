"""How much of an app was reached: examples counted by hand from their sources, and what is said loudly."""
from __future__ import annotations

import unittest
from pathlib import Path

from tests.support import EXAMPLES, ToolCase, certificate
from vet_tools import forms
from vet_tools.certificate import Certificate
from vet_tools.coverage import Coverage, component_text, coverage, percent

ID, POST = "Lvendor/Device;->id()Ljava/lang/String;", "Lvendor/Net;->post(Ljava/lang/Object;)V"
TOLD = "Landroid/location/LocationListener;->onLocationChanged(Landroid/location/Location;)V"


def of(name: str) -> Coverage:
    """The coverage of an example by its certificate."""
    return coverage(EXAMPLES / name, Certificate.read(str(certificate(name))))


def counts(found: dict[tuple[str, str], set[tuple[int, int]]]) -> dict[tuple[str, str], int]:
    return {key: len(places) for key, places in found.items()}


def u4(*numbers: int) -> bytes:
    return b"".join(number.to_bytes(4, "little") for number in numbers)


class Counted(unittest.TestCase):
    def check(self, name: str, methods: str, classes: str, components: list[str], sources: dict[tuple[str, str], int],
              sinks: dict[tuple[str, str], int], arrivals: dict[tuple[str, str], int]) -> Coverage:
        found = of(name)
        self.assertEqual(f"{len(found.reached)} of {found.with_code}", methods)
        self.assertEqual(f"{found.classes_reached} of {found.classes}", classes)
        self.assertEqual([component_text(one) for one in found.components], components)
        met = (counts(found.sources), counts(found.sinks), counts(found.arrivals))
        self.assertEqual(met, (sources, sinks, arrivals))
        return found

    def test_one_method_takes_and_posts(self) -> None:
        found = self.check("device_id_posted", "1 of 1", "1 of 1", [
            "activity La/Main;: comes to life; runs onCreate; 1 of 1 method of its class reached"],
            {("device_id", ID): 1}, {("network", POST): 1}, {("device_id", "network"): 1})
        self.assertEqual((found.warnings(), found.unreached, found.declared), ([], [], ()))

    def test_a_declared_flow_arrives_as_well(self) -> None:
        found = self.check("declared", "1 of 1", "1 of 1", [
            "activity La/Main;: comes to life; runs onCreate; 1 of 1 method of its class reached"],
            {("device_id", ID): 1}, {("network", POST): 1}, {("device_id", "network"): 1})
        self.assertEqual(found.declared, (("device_id", "network"),))

    def test_a_click_is_run_on_its_activity(self) -> None:
        # a.Main has onCreate and send(View); the layout names send.
        self.check("click", "2 of 2", "1 of 1", [
            "activity La/Main;: comes to life; runs onCreate, send (click); 2 of 2 methods of its class reached"],
            {("device_id", ID): 1}, {("network", POST): 1}, {("device_id", "network"): 1})

    def test_a_callback_is_run_on_its_activity_and_on_a_handed_object(self) -> None:
        # a.Main is the listener of a button that it hands itself to.
        found = self.check("click_listener", "2 of 2", "1 of 1", [
            "activity La/Main;: comes to life; runs onCreate, onClick (callback); 2 of 2 methods of its class reached"],
            {("device_id", ID): 1}, {("network", POST): 1}, {("device_id", "network"): 1})
        self.assertEqual(list(found.handed), ["Landroid/view/View$OnClickListener;->onClick(Landroid/view/View;)V"])

    def test_an_argument_that_the_library_gives_is_a_source(self) -> None:
        # a.Main.onCreate, a.Listener.<init> and a.Listener.onLocationChanged; the location is the source.
        found = self.check("location_listener", "3 of 3", "2 of 2", [
            "activity La/Main;: comes to life; runs onCreate; 1 of 1 method of its class reached"],
            {("location", TOLD): 1}, {("network", POST): 1}, {("location", "network"): 1})
        self.assertEqual(list(found.handed), [TOLD])

    def test_the_application_stands_before_the_activity(self) -> None:
        self.check("application", "2 of 2", "2 of 2", [
            "application La/App;: comes to life; runs onCreate; 1 of 1 method of its class reached",
            "activity La/Main;: comes to life; runs onCreate; 1 of 1 method of its class reached"],
            {("device_id", ID): 1}, {("network", POST): 1}, {("device_id", "network"): 1})

    def test_boxes_on_shelves_are_all_reached_and_nothing_arrives(self) -> None:
        # onCreate, two constructors, first and second: five methods of four classes.
        self.check("other_box", "5 of 5", "4 of 4", [
            "activity La/Main;: comes to life; runs onCreate; 1 of 1 method of its class reached"],
            {("device_id", ID): 1}, {("network", POST): 1}, {})

    def test_a_native_method_has_no_code_and_is_a_place_of_its_own(self) -> None:
        found = self.check("native_method", "1 of 1", "1 of 1", [
            "activity La/Main;: comes to life; runs onCreate; 1 of 1 method of its class reached"], {}, {}, {})
        self.assertEqual({cause: len(places) for cause, places in found.unknown.items()}, {"native": 1})
        self.assertEqual([warning[:19] for warning in found.warnings()], ["NO SOURCE WAS MET: ", "NO SINK WAS MET: no"])

    def test_a_call_without_a_summary_is_a_place_of_its_own(self) -> None:
        found = self.check("unlisted_call", "1 of 1", "1 of 1", [
            "activity La/Main;: comes to life; runs onCreate; 1 of 1 method of its class reached"], {}, {}, {})
        self.assertEqual({cause: len(places) for cause, places in found.unknown.items()}, {"no summary": 1})

    def test_percents_are_rounded_down(self) -> None:
        self.assertEqual([percent(3, 2291), percent(999, 1000), percent(9999, 10000), percent(1, 1), percent(0, 0)],
                         ["0.1 %", "99.9 %", "99.9 %", "100.0 %", "0.0 %"])


class Loud(ToolCase):
    """Tables written by hand; they are not closed, and coverage is not what finds that."""

    def table(self, app: Path, *rows: bytes) -> str:
        path = self.folder / "table.cert"
        digest = forms.digest_of(app, forms.manifest_of(app).dex_files)
        path.write_bytes(b"VETCERT2" + digest + u4(len(rows)) + b"".join(rows))
        return str(path)

    def test_where_nothing_is_reached_it_says_so_first_and_loudly(self) -> None:
        app = EXAMPLES / "made_elsewhere"
        done = self.run_tool("coverage", str(app), self.table(app, b"\x0e" + u4(0) + b"\x00"))
        self.assertEqual((done.returncode, done.stderr), (0, ""))
        self.assertRegex(done.stdout, r"^\*\*\* NOTHING WAS REACHED: of 4 methods with code none is run")
        self.assertIn("Methods with code that were reached: 0 of 4 (0.0 %)\n", done.stdout)
        self.assertIn("activity La/Main;: does not come to life; nothing of it is run; 0 of 1 method", done.stdout)

    def test_where_next_to_nothing_is_reached_it_says_so_loudly(self) -> None:
        # many_methods has 401 methods with code and a constructor of none: one of them is reached.
        app = EXAMPLES / "many_methods"
        table = self.table(app, b"\x01\x00" + u4(0, 1, 0, 0))
        done = self.run_tool("coverage", str(app), table)
        self.assertRegex(done.stdout, r"^\*\*\* ONLY 1 OF 401 METHODS WERE REACHED: ")
        unreached = self.run_tool("coverage", str(app), table, "--unreached").stdout.splitlines()
        self.assertEqual(len(unreached), 400)

    def test_a_component_of_which_nothing_is_run_is_named(self) -> None:
        app = EXAMPLES / "preferences"
        rows = (b"\x01\x00" + u4(0, 1, 0, 0), b"\x0e" + u4(0) + b"\x01", b"\x0e" + u4(1) + b"\x01")
        done = self.run_tool("coverage", str(app), self.table(app, *rows))
        self.assertIn("*** NOTHING OF ACTIVITY La/Other; IS RUN. ***\n", done.stdout)
        self.assertNotIn("ACTIVITY La/Main;", done.stdout)
        self.assertIn("*** NO SOURCE WAS MET: ", done.stdout)

    def test_a_certificate_of_other_files_is_refused(self) -> None:
        done = self.run_tool("coverage", str(EXAMPLES / "lifecycle"), str(certificate("declared")))
        self.assertEqual((done.returncode, done.stdout), (70, ""))
        self.assertIn("The certificate is about other files: its digest is ", done.stderr)

    def test_a_row_that_names_what_the_app_has_not_is_refused(self) -> None:
        app = EXAMPLES / "lifecycle"
        for row in (b"\x01\x00" + u4(0, 1, 9, 0), b"\x01\x00" + u4(0, 99, 0, 0), b"\x01\x02" + u4(0, 0, 0, 0),
                    b"\x0e" + u4(7) + b"\x01", b"\x14\x00" + u4(0, 1, 0, 0) + b"\x00" + u4(9999),
                    b"\x12\x63\x00\x00" + u4(0, 1, 0, 0)):
            done = self.run_tool("coverage", str(app), self.table(app, row))
            self.assertEqual((done.returncode, done.stdout), (70, ""), row.hex())
            self.assertIn("The certificate names what the app or the lists do not have", done.stderr)

    def test_damaged_and_absent_certificates_are_refused_in_the_words_of_the_program(self) -> None:
        app = EXAMPLES / "lifecycle"
        path = self.folder / "cut.cert"
        path.write_bytes(certificate("declared").read_bytes()[:30])
        for name, due in ((str(path), "certificate refused: cut at 8"), (str(app / "Main.smali"), "refused: magic"),
                          (str(self.folder / "no.cert"), "could not be read (No such file or directory)")):
            done = self.run_tool("coverage", str(app), name)
            self.assertEqual((done.returncode, done.stdout, done.stderr.count("\n")), (70, "", 1))
            self.assertIn(due, done.stderr)


if __name__ == "__main__":
    unittest.main()
