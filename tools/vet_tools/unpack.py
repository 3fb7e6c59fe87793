"""Makes of an APK the folder that `vet check` reads: manifest, layouts, declaration, lists and DEX files.

Nothing is judged here. What the folder's forms have no place for is said on stderr, and what could not be read is a
refusal: no form is left empty for want of reading.
"""
from __future__ import annotations

import argparse
import logging
import shlex
import shutil
import sys
import tempfile
from dataclasses import dataclass
from pathlib import Path

from vet_tools import apk_archive, app_layouts, binary_xml
from vet_tools.apk_archive import Archive, Contents
from vet_tools.app_classes import classes_of
from vet_tools.app_layouts import AppNames, Layout
from vet_tools.app_manifest import Manifest, read_manifest
from vet_tools.command import Words
from vet_tools.named_classes import named_classes
from vet_tools.progress import Progress
from vet_tools.refusal import Refusal, readable
from vet_tools.resource_table import ResourceTable
from vet_tools.shown import shown
from vet_tools.toml_text import LONGEST_FILE

ROOT = Path(__file__).resolve().parents[2]
MANIFEST = "AndroidManifest.xml"
TABLE = "resources.arsc"
MOST_SAID = 20
EXAMPLE = """example:
  tools/unpack shop.apk shop          makes the folder shop
  ./vet check shop 4                  judges it

The folder gets an empty declaration, by which no flow is declared, where none is handed in. Exit status: 0 where the
folder was made, 1 where not, 4 where these words are no command."""


@dataclass
class App:
    """What was read of an APK."""
    manifest: Manifest
    layouts: list[Layout]
    dex: dict[str, bytes]
    named: dict[str, str]
    contents: Contents


def read_app(archive: Archive, progress: Progress) -> App:
    """Reads an APK; a `Refusal` where a part can't be read, or has no place in the forms."""
    dex = archive.dex_files()
    progress.say("looking at what the archive has")
    contents = archive.contents()
    raw = archive.read(TABLE, apk_archive.LONGEST_TABLE) if TABLE in archive.names else None
    progress.say("reading the resources")
    resources = ResourceTable(raw)
    root = binary_xml.read(archive.read(MANIFEST, LONGEST_FILE), MANIFEST)
    manifest = read_manifest(root, resources)
    about = AppNames(manifest.package, resources, classes_of(dex, progress))
    others = read_compiled(archive, contents, resources, progress)
    layouts = [app_layouts.read_layout(name, one, about) for name, one in others.items()]
    layouts.append(app_layouts.styles(resources))
    known = manifest.classes() | {name for it in layouts for name in it.classes}
    progress.say("looking for names of classes")
    return App(manifest, layouts, dex, named_classes(root, others, about, known), contents)


def read_compiled(archive: Archive, contents: Contents, resources: ResourceTable,
                  progress: Progress) -> dict[str, binary_xml.Element]:
    """The root of each compiled XML file but the manifest, by the file's name; a layout that is none is refused."""
    compiled = set(contents.compiled)
    names = sorted(compiled - {MANIFEST})
    for name in archive.names:
        is_layout = "layout" in resources.files.get(name, ()) or name.startswith("res/layout") and name.endswith(".xml")
        if is_layout and name not in compiled:
            raise Refusal(f"the layout {shown(name)} can't be read: it is no compiled XML")
    found: dict[str, binary_xml.Element] = {}
    size = 0
    for i, name in enumerate(names):
        progress.say(f"reading layouts and other resources, {i + 1} of {len(names)}")
        raw = archive.read(name, LONGEST_FILE)
        size += len(raw)
        if size > apk_archive.LONGEST_XML:
            raise Refusal(f"the compiled XML of the APK has more than {apk_archive.LONGEST_XML} bytes")
        found[name] = binary_xml.read(raw, name)
    return found


def not_carried(app: App) -> list[str]:
    """What of the app the folder does not have, or has in vain, a sentence each."""
    said = _some([f"native library {shown(name)}" for name in app.contents.native])
    said += _some([f"{shown(name)}, code that no device loads by itself" for name in app.contents.other_code])
    said += _some([f"{shown(name)}, another package" for name in app.contents.packed])
    said += _some([f"{part}; what another part does is not judged" for part in app.manifest.parts])
    for name, raw in app.dex.items():
        found = apk_archive.version(raw)
        if found != apk_archive.READ:
            said.append(f"{name} has version {found}, and the program reads {apk_archive.READ} alone: it will refuse "
                        "this app; build it with a min-api below 24")
    return said


def named_elsewhere(app: App) -> list[str]:
    """Where classes of the app are named to which no event of the machine comes, a sentence each."""
    return _some([f"the class {shown(name)} by {shown_place(where)}; no event comes to it, so the app is not clear"
                  for name, where in app.named.items()], "named elsewhere")


def _some(said: list[str], what: str = "not carried") -> list[str]:
    """The first of what is said, each as something of this kind, and how many more there are."""
    more = [f"{what}: {len(said) - MOST_SAID} more of this kind"] if len(said) > MOST_SAID else []
    return [f"{what}: {it}" for it in said[:MOST_SAID]] + more


def shown_place(where: str) -> str:
    """A place in a person's words, each word as a report prints names."""
    return " ".join(map(shown, where.split(" ")))


def default_lists() -> Path:
    """The Android lists of this repository, else the sample ones."""
    android = ROOT / "lists" / "android.toml"
    return android if android.is_file() else ROOT / "examples" / "lists.toml"


def read_form(path: Path, what: str) -> bytes:
    """The bytes of a form that is copied as it is."""
    try:
        raw = path.read_bytes()
    except OSError as error:
        raise Refusal(f"{what} {readable(path)} can't be read: {error.strerror}") from None
    if len(raw) > LONGEST_FILE:
        raise Refusal(f"{what} {readable(path)} has {len(raw)} bytes, and the program reads at most {LONGEST_FILE}")
    return raw


def write_folder(target: Path, files: dict[str, bytes]) -> None:
    """Writes the files into a new folder of this name, which is there whole or not at all."""
    refuse_existing(target)
    try:
        made = Path(tempfile.mkdtemp(prefix=".unpack-", dir=target.parent))
        try:
            for name, raw in files.items():
                (made / name).write_bytes(raw)
            made.chmod(0o755)
            made.rename(target)
        finally:
            shutil.rmtree(made, ignore_errors=True)
    except OSError as error:
        raise Refusal(f"the folder {readable(target)} can't be written: {error.strerror}") from None


def refuse_existing(target: Path) -> None:
    """A folder that is there is left as it is."""
    if target.exists() or target.is_symlink():
        raise Refusal(f"{readable(target)} is there already; name a folder that is not, or remove it")
    if not target.parent.is_dir():
        raise Refusal(f"there is no folder {readable(target.parent)} to make {readable(target.name)} in")


def run(apk: Path, target: Path, lists: Path, declaration: Path | None, progress: Progress) -> App:
    """Makes the folder, and returns what was read."""
    refuse_existing(target)
    forms = {"lists.toml": read_form(lists, "the lists")}
    forms["declaration.toml"] = read_form(declaration, "the declaration") if declaration else b""
    app = read_app(Archive(apk), progress)
    forms["manifest.toml"] = app.manifest.form(len(app.dex), list(app.named))
    forms["layouts.toml"] = app_layouts.form(app.layouts)
    write_folder(target, {**forms, **app.dex})
    return app


def summary(app: App, target: Path) -> str:
    """What was made, in two lines."""
    count = sum(1 for it in app.layouts if it.clicks or it.classes)
    counted = [f"{len(app.dex)} DEX file{'s' * (len(app.dex) != 1)}",
               f"{len(app.manifest.components)} component{'s' * (len(app.manifest.components) != 1)}",
               f"{count} layout{'s' * (count != 1)} with clicks or classes"]
    made = readable(target)
    return (f"{shown(app.manifest.package)}: {', '.join(counted)}\n"
            f"made {made}; next: ./vet check {shlex.quote(made)} 4\n")


def arguments(words: list[str] | None) -> argparse.Namespace:
    """The words of the command, read."""
    parser = Words(prog="tools/unpack", epilog=EXAMPLE, description=(__doc__ or "").split("\n\n")[0],
                   formatter_class=argparse.RawDescriptionHelpFormatter)
    parser.add_argument("apk", metavar="APK", type=Path, help="the app, an APK file")
    parser.add_argument("folder", metavar="DIR", type=Path, help="the folder to make; it must not be there yet")
    parser.add_argument("--lists", metavar="FILE", type=Path,
                        help="the office's lists (default: lists/android.toml of this repository)")
    parser.add_argument("--declaration", metavar="FILE", type=Path,
                        help="the developer's declaration (default: an empty one)")
    return parser.parse_args(words)


def main(words: list[str] | None = None) -> int:
    """The command `tools/unpack`."""
    given = arguments(words)
    logging.getLogger("androguard").setLevel(logging.CRITICAL + 1)
    progress = Progress("unpack")
    lists = given.lists or default_lists()
    try:
        app = run(given.apk, given.folder, lists, given.declaration, progress)
    except Refusal as reason:
        return refused(str(reason), progress)
    except KeyboardInterrupt:
        return refused("stopped; nothing was made", progress)
    except MemoryError:
        return refused("there is not enough memory for this APK; nothing was made", progress)
    progress.end()
    if not given.lists:
        print(f"tools/unpack: took the lists {lists.relative_to(ROOT)}", file=sys.stderr)
    for line in not_carried(app) + named_elsewhere(app):
        print(f"tools/unpack: {line}", file=sys.stderr)
    sys.stdout.write(summary(app, given.folder))
    return 0


def refused(reason: str, progress: Progress) -> int:
    """Says why nothing was made, and returns the status of that."""
    progress.end()
    print(f"tools/unpack: {reason}", file=sys.stderr)
    return 1
