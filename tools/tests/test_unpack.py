"""`tools/unpack`: the folder that it makes of an APK, what it says, and what it refuses."""
from __future__ import annotations

import contextlib
import io
import os
import re
import shutil
import struct
import subprocess
import tomllib
import unittest
import zipfile
from pathlib import Path

from tests.made_apk import ANDROID, MAIN, ROOT, RUNNABLE, TWO, dumped, entry, make, manifest, replaced, with_gaps
from tests.support import FolderCase
from vet_tools import unpack
from vet_tools.app_classes import classes_of
from vet_tools.progress import Progress
from vet_tools.refusal import Refusal

REAL = Path("/usr/share/doc/androguard/examples")
LINEAR = f"<LinearLayout {ANDROID}>"
BUTTON = f'{LINEAR}<Button android:onClick="send"/></LinearLayout>'


class UnpackTest(FolderCase):
    """Each test has a folder of its own."""

    def run_tool(self, apk: Path, *flags: str) -> tuple[int, str, str]:
        """Status, stdout and stderr of the tool on this APK; what it makes is `self.folder / "app"`."""
        out, said = io.StringIO(), io.StringIO()
        with contextlib.redirect_stdout(out), contextlib.redirect_stderr(said):
            status = unpack.main([str(apk), str(self.folder / "app"), *flags])
        return status, out.getvalue(), said.getvalue()

    def made(self, text: str, resources: dict[str, str] | None = None, entries: dict[str, bytes] | None = None) -> str:
        """Unpacks a made APK, and returns what is said on stderr."""
        status, _, said = self.run_tool(make(self.folder / "src", text, resources, entries))
        self.assertEqual(0, status, said)
        return said

    def form(self, name: str) -> str:
        return (self.folder / "app" / name).read_text()

    def layouts(self) -> dict[str, tuple[list[str], list[str]]]:
        read = tomllib.loads(self.form("layouts.toml"))
        return {it["name"]: (it["clicks"], it["classes"]) for it in read.get("layout", [])}

    def refuses(self, apk: Path, *parts: str, flags: tuple[str, ...] = ()) -> None:
        """The tool refuses in one sentence that has these parts, and leaves nothing behind."""
        before = sorted(os.listdir(self.folder))
        status, out, said = self.run_tool(apk, *flags)
        self.assertEqual((1, ""), (status, out), said)
        self.assertEqual(1, said.count("\n"), said)
        self.assertTrue(said.startswith("tools/unpack: "), said)
        self.assertNotIn("Traceback", said)
        for part in parts:
            self.assertIn(part, said)
        self.assertEqual(before, sorted(os.listdir(self.folder)))


class ManifestTest(UnpackTest):

    def test_a_folder_worked_out_by_hand(self) -> None:
        apk = make(self.folder / "src", f"""<manifest {ANDROID} package="a">
            <application android:name=".Shop" android:label="x">
              <activity android:name=".Main"/>
              <activity android:name="b.c.Other$Inner"/>
              <service android:name="Work"/>
              <receiver android:name="a.Bell"/>
              <provider android:name=".Prov" android:authorities="a.p"/>
            </application></manifest>""",
                   {"layout/m.xml": BUTTON})
        status, out, said = self.run_tool(apk, "--lists", str(ROOT / "examples" / "lists.toml"))
        self.assertEqual((0, ""), (status, said))
        self.assertEqual("""package = "a"
dex_files = 1
application = "La/Shop;"

[[component]]
kind = "activity"
class = "La/Main;"

[[component]]
kind = "activity"
class = "Lb/c/Other$Inner;"

[[component]]
kind = "service"
class = "La/Work;"

[[component]]
kind = "receiver"
class = "La/Bell;"

[[component]]
kind = "provider"
class = "La/Prov;"
""", self.form("manifest.toml"))
        self.assertEqual("""[[layout]]
name = "res/layout/m.xml"
clicks = ["send"]
classes = []
""", self.form("layouts.toml"))
        self.assertEqual("", self.form("declaration.toml"))
        self.assertEqual((ROOT / "examples" / "lists.toml").read_text(), self.form("lists.toml"))
        self.assertEqual(MAIN.read_bytes(), (self.folder / "app" / "classes.dex").read_bytes())
        self.assertEqual(["classes.dex", "declaration.toml", "layouts.toml", "lists.toml", "manifest.toml"],
                         sorted(os.listdir(self.folder / "app")))
        self.assertIn("a: 1 DEX file, 5 components, 1 layout with clicks or classes", out)

    def test_an_alias_is_the_activity_that_it_names(self) -> None:
        self.made(manifest('<activity android:name=".Main"/>'
                           '<activity-alias android:name=".Door" android:targetActivity=".Main"/>'
                           '<activity-alias android:name=".Gate" android:targetActivity="a.Other"/>'))
        read = tomllib.loads(self.form("manifest.toml"))
        self.assertEqual([{"kind": "activity", "class": "La/Main;"}, {"kind": "activity", "class": "La/Other;"}],
                         read["component"])

    def test_a_component_that_stands_twice_is_one(self) -> None:
        self.made(manifest('<service android:name=".Work"/><service android:name="a.Work"/>'))
        self.assertEqual([{"kind": "service", "class": "La/Work;"}],
                         tomllib.loads(self.form("manifest.toml"))["component"])

    def test_a_name_by_reference_is_that_of_the_resource(self) -> None:
        self.made(manifest('<activity android:name="@string/main"/>'),
                  {"values/s.xml": '<resources><string name="main">a.Main</string></resources>'})
        self.assertEqual("La/Main;", tomllib.loads(self.form("manifest.toml"))["component"][0]["class"])

    def test_an_element_outside_the_application_is_no_component(self) -> None:
        self.made(f'<manifest {ANDROID} package="a"><activity android:name=".No"/><application/></manifest>')
        self.assertNotIn("component", tomllib.loads(self.form("manifest.toml")))

    def test_the_declaration_is_taken_as_it_is(self) -> None:
        declaration = self.folder / "mine.toml"
        declaration.write_text('[[use]]\nsource = "device_id"\nsink = "network"\n')
        status, _, said = self.run_tool(make(self.folder / "src", manifest("")), "--declaration", str(declaration))
        self.assertEqual(0, status, said)
        self.assertEqual(declaration.read_text(), self.form("declaration.toml"))

    def test_which_lists_were_taken_is_said(self) -> None:
        chosen = "lists/android.toml" if (ROOT / "lists" / "android.toml").is_file() else "examples/lists.toml"
        self.assertEqual(f"tools/unpack: took the lists {chosen}\n", self.made(manifest("")))
        self.assertEqual((ROOT / chosen).read_bytes(), (self.folder / "app" / "lists.toml").read_bytes())


class LayoutTest(UnpackTest):

    def test_clicks_and_classes_of_all_kinds(self) -> None:
        self.made(manifest(""), {
            "layout/one.xml": f"""{LINEAR}<a.b.Box android:onClick="open"><Button android:onClick="send"/></a.b.Box>
                <view class="a.Seen"/><include layout="@layout/two"/></LinearLayout>""",
            "layout/two.xml": f"""<merge {ANDROID}><fragment android:name="a.First"/>
                <fragment class="a.Second"/></merge>""",
            "layout-land/one.xml": f'{LINEAR}<Button android:onClick="turned"/></LinearLayout>',
            "layout/nothing.xml": f"{LINEAR}<Button/></LinearLayout>",
            "menu/m.xml": f'<menu {ANDROID}><item android:onClick="chosen"/></menu>',
            "xml/prefs.xml": f"<PreferenceScreen {ANDROID}><a.Choice/></PreferenceScreen>"})
        self.assertEqual({
            "res/layout-land/one.xml": (["turned"], []),
            "res/layout/one.xml": (["open", "send"], ["La/Seen;", "La/b/Box;"]),
            "res/layout/two.xml": ([], ["La/First;", "La/Second;"]),
            "res/menu/m.xml": (["chosen"], []),
            "res/xml/prefs.xml": ([], ["La/Choice;"])}, self.layouts())

    def test_a_click_by_a_style_or_a_reference_is_found(self) -> None:
        self.made(manifest(""), {
            "layout/one.xml": f'{LINEAR}<Button android:onClick="@string/way"/></LinearLayout>',
            "values/s.xml": '<resources><string name="way">walk</string>'
                            '<style name="S"><item name="android:onClick">ride</item></style></resources>',
            "values-de/s.xml": '<resources><string name="way">gehen</string></resources>'})
        self.assertEqual({"res/layout/one.xml": (["gehen", "walk"], []), "resources.arsc": (["ride"], [])},
                         self.layouts())

    def test_a_table_of_resources_with_gaps_is_read(self) -> None:
        many = "".join(f'<string name="s{i}">t{i}</string>' for i in range(100))
        table = with_gaps(self.folder / "gaps", manifest("", "a.b"), {
            "values/s.xml": f'<resources>{many}<string name="way">walk</string></resources>',
            "values-de/s.xml": '<resources><string name="s77">x</string><string name="way">gehen</string></resources>',
            "layout/one.xml": f'{LINEAR}<Button android:onClick="@string/way"/></LinearLayout>'})
        status, _, said = self.run_tool(replaced(table, {"classes.dex": MAIN.read_bytes()}))
        self.assertEqual(0, status, said)
        self.assertEqual({"res/layout/one.xml": (["gehen", "walk"], [])}, self.layouts())

    def test_classes_of_the_app_are_found_where_names_are_told_otherwise(self) -> None:
        self.made(manifest(""), {"layout/one.xml": f"""{LINEAR}<androidx.fragment.app.FragmentContainerView
            android:name="a.Later"/><ImageView class="a.Main"/><TextView android:name="no.Class"/></LinearLayout>"""},
                  {"classes.dex": RUNNABLE.read_bytes()})
        due = ["La/Later;", "La/Main;", "Landroidx/fragment/app/FragmentContainerView;"]
        self.assertEqual({"res/layout/one.xml": ([], due)}, self.layouts())

    def test_a_layout_in_another_folder_is_found(self) -> None:
        apk = make(self.folder / "src", manifest(""), {"layout/one.xml": BUTTON})
        hidden = bytearray(entry(apk, "res/layout/one.xml"))
        hidden[0:2] = b"\x77\x00"  # a device does not look at this kind
        status, _, said = self.run_tool(replaced(apk, {"assets/pic.png": bytes(hidden)}))
        self.assertEqual(0, status, said)
        self.assertEqual((["send"], []), self.layouts()["assets/pic.png"])

    def test_layouts_are_those_that_aapt_tells(self) -> None:
        apk = make(self.folder / "src", manifest(""), {
            "layout/one.xml": f"""{LINEAR}<x.y.Z android:onClick="a1"/><Button android:onClick="b2"/>
                <q.R/></LinearLayout>"""})
        self.run_tool(apk)
        self.assertEqual(told_by_aapt(apk, "res/layout/one.xml"), self.layouts()["res/layout/one.xml"])


class NamedTest(UnpackTest):
    TEXT = (f'<manifest {ANDROID} package="a"><application android:backupAgent=".Later"><activity android:name=".Main" '
            'android:parentActivityName=".Main"/></application></manifest>')

    def test_a_class_that_is_named_elsewhere_is_said_and_written(self) -> None:
        said = self.made(self.TEXT, None, {"classes.dex": RUNNABLE.read_bytes()})
        self.assertIn("named elsewhere: the class La/Later; by backupAgent in AndroidManifest.xml; no event comes to it, "
                      "so the app is not clear\n", said)
        self.assertNotIn("La/Main;", said)
        self.assertNotIn("not carried", said)
        self.assertEqual(["La/Later;"], tomllib.loads(self.form("manifest.toml"))["named"])

    def test_where_no_class_is_named_elsewhere_the_key_is_left_out(self) -> None:
        said = self.made(manifest('<activity android:name=".Main"/>'), None, {"classes.dex": RUNNABLE.read_bytes()})
        self.assertNotIn("named", said)
        self.assertNotIn("named", self.form("manifest.toml"))

    def test_preferences_menus_and_texts_name_classes(self) -> None:
        for resources, where in [
                ({"xml/p.xml": f'<P {ANDROID} android:fragment="a.Later"/>'}, r"fragment in res/xml/p\.xml"),
                ({"menu/m.xml": f'<menu {ANDROID}><item android:actionViewClass="a.Later"/></menu>'},
                 r"actionViewClass in res/menu/m\.xml"),
                ({"values/s.xml": '<resources><string name="b">a.Later</string></resources>'}, r"resources\.arsc")]:
            with self.subTest(where):
                self.setUp()
                said = self.made(manifest('<activity android:name=".Main"/>'), resources,
                                 {"classes.dex": RUNNABLE.read_bytes()})
                self.assertRegex(said, rf"named elsewhere: the class La/Later; by {where}; ")


class CarriedTest(UnpackTest):

    def test_dex_files_stand_in_their_order_up_to_the_first_gap(self) -> None:
        first, second = ((TWO / name).read_bytes() for name in ("classes.dex", "classes2.dex"))
        said = self.made(manifest('<activity android:name=".Main"/>'), None,
                         {"classes2.dex": second, "classes.dex": first, "classes4.dex": second,
                          "assets/more.dex": second})
        self.assertEqual(2, tomllib.loads(self.form("manifest.toml"))["dex_files"])
        app = self.folder / "app"
        self.assertEqual([first, second], [(app / name).read_bytes() for name in ("classes.dex", "classes2.dex")])
        self.assertFalse((self.folder / "app" / "classes4.dex").exists())
        self.assertIn("not carried: classes4.dex, code that no device loads by itself\n", said)
        self.assertIn("not carried: assets/more.dex, code that no device loads by itself\n", said)

    def test_native_libraries_and_parts_are_said(self) -> None:
        text = f'<manifest {ANDROID} package="a" android:isSplitRequired="true"><application/></manifest>'
        said = self.made(text, None,
                         {"classes.dex": MAIN.read_bytes(), "lib/x86/libn.so": b"\x7fELF\2\1\1\0\0",
                          "assets/pic.png": b"\x7fELF\2\1\1\0\0", "assets/b.apk": b"PK\3\4....."})
        self.assertIn("not carried: native library lib/x86/libn.so\n", said)
        self.assertIn("not carried: native library assets/pic.png\n", said)
        self.assertIn("not carried: assets/b.apk, another package\n", said)
        self.assertIn("not carried: the app needs further parts (split APKs)", said)

    def test_of_many_of_one_kind_the_first_are_said(self) -> None:
        said = self.made(manifest(""), None, {"classes.dex": MAIN.read_bytes(),
                                              **{f"lib/{i:02}.so": b"\x7fELF\2\1\1\0\0" for i in range(25)}})
        self.assertIn("native library lib/19.so\n", said)
        self.assertNotIn("lib/20.so", said)
        self.assertIn("not carried: 5 more of this kind\n", said)

    def test_a_dex_file_of_another_version_is_carried_and_said(self) -> None:
        newer = b"dex\n037\0" + MAIN.read_bytes()[8:]
        said = self.made(manifest(""), None, {"classes.dex": newer})
        self.assertIn("classes.dex has version 037, and the program reads 035 alone", said)
        self.assertEqual(newer, (self.folder / "app" / "classes.dex").read_bytes())

    def test_names_of_an_app_reach_no_terminal_as_they_are(self) -> None:
        said = self.made(manifest(""), None, {"classes.dex": MAIN.read_bytes(),
                                              "lib/\x1b[2J<script>.so": b"\x7fELF\2\1\1\0\0"})
        self.assertIn(r"native library lib/\x1b[2J<script>.so", said)
        self.assertNotIn("\x1b", said)

    def test_names_that_lead_elsewhere_make_no_file(self) -> None:
        code, out = MAIN.read_bytes(), f"out-{self.folder.name}"
        said = self.made(manifest(""), None, {"classes.dex": code, f"../../{out}": code, f"lib/../../{out}.so": code,
                                              f"{self.folder}/{out}": code, f"res/../../{out}.txt": b"x"})
        self.assertIn(f"not carried: ../../{out}, code that no device loads by itself\n", said)
        self.assertEqual(sorted(["manifest.toml", "layouts.toml", "declaration.toml", "lists.toml", "classes.dex"]),
                         sorted(os.listdir(self.folder / "app")))
        self.assertEqual([], [it for place in (self.folder, self.folder.parent) for it in place.glob(f"{out}*")])

    def test_names_of_the_manifest_are_carried_and_reach_no_terminal_as_they_are(self) -> None:
        apk = make(self.folder / "src", manifest('<activity android:name="a.Name"/>', "com.shop"))
        raw = entry(apk, "AndroidManifest.xml")
        for old, new in (("a.Name", 'a.<s"\n'), ("com.shop", "c\x1b[2J\u202e<>")):
            raw = raw.replace(old.encode("utf-16-le"), new.encode("utf-16-le"))
        status, out, said = self.run_tool(replaced(apk, {"AndroidManifest.xml": raw}))
        self.assertEqual(0, status, said)
        self.assertFalse({"\x1b", "\u202e"} & set(out + said))
        read = tomllib.loads(self.form("manifest.toml"))
        self.assertEqual(("c\x1b[2J\u202e<>", 'La/<s"\n;'), (read["package"], read["component"][0]["class"]))


class RefusalTest(UnpackTest):

    def apk(self, text: str = manifest('<activity android:name=".Main"/>'),
            entries: dict[str, bytes] | None = None) -> Path:
        return make(self.folder / "src", text, {"layout/one.xml": BUTTON}, entries)

    def test_what_is_no_apk(self) -> None:
        text = self.folder / "text.apk"
        text.write_text("no archive")
        self.refuses(text, "it is no ZIP archive")
        self.refuses(self.folder / "none.apk", "there is no file")
        self.refuses(self.folder, "is a folder")

    def test_an_apk_that_was_cut(self) -> None:
        whole = self.apk().read_bytes()
        cut = self.folder / "cut.apk"
        for part in range(1, 20):
            cut.write_bytes(whole[:len(whole) * part // 20])
            self.refuses(cut)

    def test_damaged_files_are_refused_or_read_alike(self) -> None:
        apk = self.apk()
        self.run_tool(apk)
        due = self.layouts(), self.form("manifest.toml")
        for name in ("res/layout/one.xml", "AndroidManifest.xml", "resources.arsc", "classes.dex"):
            raw = entry(apk, name)
            for at in range(0, len(raw), max(1, len(raw) // 15)):
                with self.subTest(name=name, at=at):
                    changed = replaced(apk, {name: raw[:at] + bytes([raw[at] ^ 0xFF]) + raw[at + 1:]})
                    shutil.rmtree(self.folder / "app", ignore_errors=True)
                    status, _, said = self.run_tool(changed)
                    self.assertNotIn("Traceback", said)
                    if status == 0 and name == "res/layout/one.xml":
                        self.assertEqual(due[1], self.form("manifest.toml"))
                    elif status:
                        self.assertFalse((self.folder / "app").exists())

    def test_a_layout_that_is_no_compiled_xml(self) -> None:
        apk = replaced(self.apk(), {"res/layout/one.xml": b"<LinearLayout onClick='send'/>"})
        self.refuses(apk, "the layout res/layout/one.xml can't be read")

    def test_a_layout_of_which_device_and_parser_would_see_other_elements(self) -> None:
        apk = self.apk()
        raw = entry(apk, "res/layout/one.xml")
        begin = raw.index(struct.pack("<HH", 0x0102, 16))
        longer = bytearray(raw)
        struct.pack_into("<I", longer, begin + 4, struct.unpack_from("<I", raw, begin + 4)[0] + 4)
        self.refuses(replaced(apk, {"res/layout/one.xml": bytes(longer)}), "res/layout/one.xml can't be read")
        moved = bytearray(raw)
        struct.pack_into("<H", moved, begin + 24, 40)
        self.refuses(replaced(apk, {"res/layout/one.xml": bytes(moved)}), "do not lie as compilers lay them")

    def test_a_click_of_two_texts(self) -> None:
        apk = self.apk()
        raw = bytearray(entry(apk, "res/layout/one.xml"))
        at = raw.index(struct.pack("<HBB", 8, 0, 3))
        struct.pack_into("<I", raw, at - 4, 0)
        told = struct.unpack_from("<I", raw, at + 4)[0]
        self.assertNotEqual(0, told, "the click is not the first text of the file")
        self.refuses(replaced(apk, {"res/layout/one.xml": bytes(raw)}), "an attribute has two texts")

    def test_archives_that_a_device_does_not_take(self) -> None:
        apk = self.apk()
        with self.assertWarns(UserWarning), zipfile.ZipFile(apk, "a") as archive:
            archive.writestr("classes.dex", RUNNABLE.read_bytes())
        self.refuses(apk, "has classes.dex twice")
        before = self.folder / "before.apk"
        before.write_bytes(b"something before it" + self.apk().read_bytes())
        self.refuses(before, "is not where its end says")

    def test_entries_that_a_device_reads_otherwise(self) -> None:
        apk = self.apk()
        with zipfile.ZipFile(apk, "a") as archive:
            archive.writestr("assets/x", b"12345678", compress_type=zipfile.ZIP_BZIP2)
        self.refuses(apk, "assets/x is packed in a way that a device reads otherwise")

    def test_archives_without_code_or_manifest(self) -> None:
        self.refuses(self.apk(entries={}), "no classes.dex")
        self.refuses(replaced(self.apk(), {"AndroidManifest.xml": None}), "no AndroidManifest.xml")
        for name, word in [("base.apk", "a set of APKs"), ("base/manifest/AndroidManifest.xml", "a bundle"),
                           ("x", "no APK")]:
            other = self.folder / "other.apk"
            with zipfile.ZipFile(other, "w") as archive:
                archive.writestr(name, b"PK")
            self.refuses(other, word)

    def test_dex_files_that_are_too_many_or_too_long(self) -> None:
        dex = MAIN.read_bytes()
        many = {f"classes{i if i > 1 else ''}.dex": dex for i in range(1, 18)}
        self.refuses(self.apk(entries=many), "17 DEX files", "at most 16")
        self.refuses(self.apk(entries={"classes.dex": dex + bytes(16_777_216)}), "at most 16777216")

    def test_what_the_forms_have_no_place_for(self) -> None:
        long = "a." + "x" * 300
        for text, part in [
                (manifest('<activity android:name=".Main"/><service android:name=".Main"/>'),
                 "as activity and as service"),
                (f'<manifest {ANDROID} package="a"><application android:name=".M"><activity android:name=".M"/>'
                 '</application></manifest>', "as application and as activity"),
                (manifest(f'<activity android:name="{long}"/>'), "more than the 255 bytes")]:
            with self.subTest(part):
                self.refuses(self.apk(text), part)
        many = "".join(f'<activity android:name=".M{i}"/>' for i in range(4097))
        self.refuses(self.apk(manifest(many)), "4097 components", "at most 4096")

    def test_names_that_have_other_bytes_in_a_dex_file(self) -> None:
        for text in ('<view class="a.\U0001F600"/>', '<Button android:onClick="go\U0001F600"/>'):
            apk = make(self.folder / "src", manifest(""), {"layout/one.xml": f"{LINEAR}{text}</LinearLayout>"})
            self.refuses(apk, "has characters that can't be carried", r"\xf0\x9f\x98\x80")

    def test_a_click_that_begins_as_a_mark_of_the_order_of_bytes_does(self) -> None:
        # U+FEFF is a character of names to a device. Python loses it at the begin of a text in UTF-16.
        layout = {"layout/one.xml": f'{LINEAR}<Button android:onClick="\ufeffgo"/></LinearLayout>'}
        status, _, said = self.run_tool(make(self.folder / "src", manifest(""), layout))
        self.assertEqual((0, (["\ufeffgo"], [])), (status, self.layouts()["res/layout/one.xml"]), said)
        shutil.rmtree(self.folder / "app")
        apk = make(self.folder / "src", manifest(""), layout, None, ("--utf16",))
        self.refuses(apk, "the method of an onClick", "has characters that can't be carried")

    def test_a_component_without_a_name(self) -> None:
        apk = self.apk()
        raw = entry(apk, "AndroidManifest.xml")
        other = raw.replace(struct.pack("<I", 0x01010003), struct.pack("<I", 0x01010001))
        self.refuses(replaced(apk, {"AndroidManifest.xml": other}), "the class of a component (activity) is missing")

    def test_a_reference_to_the_platform_is_refused_where_a_click_hangs_on_it(self) -> None:
        apk = self.apk()
        raw = bytearray(entry(apk, "res/layout/one.xml"))
        at = raw.index(struct.pack("<HBB", 8, 0, 3))
        struct.pack_into("<IHBBI", raw, at - 4, 0xFFFFFFFF, 8, 0, 1, 0x01040000)
        self.refuses(replaced(apk, {"res/layout/one.xml": bytes(raw)}),
                     "an onClick in res/layout/one.xml refers to the resource")

    def test_folders_and_files_that_are_not_as_they_should(self) -> None:
        apk = self.apk()
        (self.folder / "app").mkdir()
        self.refuses(apk, "is there already")
        (self.folder / "app").rmdir()
        self.refuses(apk, "the lists", "can't be read", flags=("--lists", str(self.folder / "no.toml")))
        self.refuses(apk, "the declaration", "can't be read", flags=("--declaration", str(self.folder / "no.toml")))
        out, said = io.StringIO(), io.StringIO()
        with contextlib.redirect_stdout(out), contextlib.redirect_stderr(said):
            status = unpack.main([str(apk), str(self.folder / "no" / "app")])
        self.assertEqual(1, status)
        self.assertIn("there is no folder", said.getvalue())


class CommandTest(UnpackTest):

    def test_help_has_an_example(self) -> None:
        run = subprocess.run([str(ROOT / "tools" / "unpack"), "--help"], capture_output=True, text=True, check=True)
        self.assertIn("tools/unpack shop.apk shop", run.stdout)

    def test_wrong_words_are_usage(self) -> None:
        run = subprocess.run([str(ROOT / "tools" / "unpack")], capture_output=True, text=True, check=False)
        self.assertEqual(4, run.returncode)
        self.assertIn("usage: tools/unpack", run.stderr)

    def test_the_command_makes_the_folder(self) -> None:
        apk = make(self.folder / "src", manifest('<activity android:name=".Main"/>'))
        run = subprocess.run([str(ROOT / "tools" / "unpack"), str(apk), "app"], capture_output=True, text=True,
                             check=True, cwd=self.folder)
        self.assertIn("next: ./vet check app 4", run.stdout)
        self.assertTrue((self.folder / "app" / "manifest.toml").is_file())


def told_by_aapt(apk: Path, name: str) -> tuple[list[str], list[str]]:
    """Clicks and classes of elements in a layout by `aapt`: elements with a dot in their name, and texts of onClick."""
    clicks, classes = set(), set()
    for line in dumped(apk, name):
        if found := re.match(r" *E: (\S*\.\S*) ", line):
            classes.add("L" + found.group(1).replace(".", "/") + ";")
        if found := re.match(r' *A: android:onClick\(0x0101026f\)="([^"]*)"', line):
            clicks.add(found.group(1))
    return sorted(clicks), sorted(classes)


def components_by_aapt(apk: Path) -> set[tuple[str, str]]:
    """Kind and class of each component by `aapt`, an alias under the activity that it names."""
    found, element, package = set(), "", ""
    for line in dumped(apk, "AndroidManifest.xml"):
        if begins := re.match(r" *E: (\S+)", line):
            element = begins.group(1)
        told = re.match(r' *A: (?:android:)?(\w+)(?:\(0x\w+\))?="([^"]*)"', line)
        if not told:
            continue
        if element == "manifest" and told.group(1) == "package":
            package = told.group(2)
        due = "targetActivity" if element == "activity-alias" else "name"
        if element in ("activity", "activity-alias", "service", "receiver", "provider") and told.group(1) == due:
            name = told.group(2)
            whole = package + name if name.startswith(".") else name if "." in name else f"{package}.{name}"
            found.add((element.removesuffix("-alias"), "L" + whole.replace(".", "/") + ";"))
    return found


class ClassesTest(unittest.TestCase):
    """Names of classes, as the tables of a DEX file's header have them."""

    def named(self, *files: bytes) -> set[str]:
        return classes_of({f"{place}.dex": raw for place, raw in enumerate(files)}, Progress("unpack"))

    def test_the_names_are_those_of_all_files(self) -> None:
        self.assertEqual({"La/Later;", "La/Main;"}, self.named(RUNNABLE.read_bytes()))
        self.assertEqual({"La/Main;", "La/Sender;"}, self.named(*[one.read_bytes() for one in TWO.glob("*.dex")]))

    def test_a_file_whose_tables_lead_nowhere_is_refused(self) -> None:
        raw = RUNNABLE.read_bytes()
        strings, types, classes, most = 0x38, 0x40, 0x60, 0x7FFFFFFF
        counts = ((strings, 0), (types, 0), (classes, most))
        for place, number in (*counts, *((it + 4, most) for it, _ in counts)):
            with self.subTest(place), self.assertRaises(Refusal):
                self.named(raw[:place] + struct.pack("<I", number) + raw[place + 4:])
        for end in (0, 0x60, 0x70, len(raw) // 4):
            with self.subTest(end), self.assertRaises(Refusal):
                self.named(raw[:end])


@unittest.skipUnless(REAL.is_dir(), "Debian's androguard is installed without its examples")
class RealAppsTest(UnpackTest):
    """Apps that come with Debian's androguard, against what `aapt` tells of them."""
    APPS = ["tests/com.politedroid_4.apk", "tests/com.teleca.jamendo_35.apk", "tests/a2dp.Vol_137.apk",
            "tests/com.android.example.text.styling.apk", "android/abcore/app-prod-debug.apk"]

    def test_components_clicks_and_classes_are_those_that_aapt_tells(self) -> None:
        for name in self.APPS:
            with self.subTest(name):
                self.setUp()
                apk = REAL / name
                status, _, said = self.run_tool(apk)
                self.assertEqual(0, status, said)
                read = tomllib.loads(self.form("manifest.toml"))
                self.assertEqual(components_by_aapt(apk), {(it["kind"], it["class"]) for it in read["component"]})
                layouts = self.layouts()
                with zipfile.ZipFile(apk) as archive:
                    files = [it for it in archive.namelist() if re.match(r"res/layout.*\.xml$", it)]
                for file in files:
                    clicks, classes = layouts.get(file, ([], []))
                    told_clicks, told_classes = told_by_aapt(apk, file)
                    self.assertEqual(told_clicks, clicks, file)
                    self.assertLessEqual(set(told_classes), set(classes), file)


if __name__ == "__main__":
    unittest.main()
