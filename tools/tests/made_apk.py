"""APKs for tests, made by Debian's `aapt` of text; the platform's attributes come from a framework made likewise."""
from __future__ import annotations

import atexit
import subprocess
import tempfile
import zipfile
from functools import cache
from pathlib import Path

ROOT = Path(__file__).resolve().parents[2]
ANDROID = 'xmlns:android="http://schemas.android.com/apk/res/android"'
# Numbers of the platform's attributes, as the documentation of `android.R.attr` has them.
PLATFORM = {
    "name": 0x01010003, "label": 0x01010001, "targetActivity": 0x01010202, "onClick": 0x0101026F,
    "backupAgent": 0x0101027F, "fragment": 0x010102E3, "layout": 0x010100F2, "id": 0x010100D0,
    "isSplitRequired": 0x01010591, "actionViewClass": 0x010102FC, "text": 0x0101014F, "parentActivityName": 0x010103A7,
    "minSdkVersion": 0x0101020C, "authorities": 0x01010018,
}
MAIN = ROOT / "examples" / "device_id_posted" / "classes.dex"  # the class La/Main;
TWO = ROOT / "tools" / "tests" / "data" / "answers" / "two_files"  # classes.dex has La/Main;, classes2.dex La/Sender;
RUNNABLE = ROOT / "examples" / "handed_runnable" / "classes.dex"  # the classes La/Later; and La/Main;


def manifest(inside: str, package: str = "a", more: str = "") -> str:
    """The text of a manifest with these elements inside its application."""
    return f'<manifest {ANDROID} package="{package}" {more}><application>{inside}</application></manifest>'


@cache
def framework() -> Path:
    """An APK that has the platform's attributes alone."""
    held = tempfile.TemporaryDirectory(prefix="framework-")
    atexit.register(held.cleanup)
    folder = Path(held.name)
    lines = [f'<public type="attr" name="{name}" id="0x{number:08x}"/>'
             f'<attr name="{name}" format="string|reference|boolean|integer"/>' for name, number in PLATFORM.items()]
    write(folder, {"AndroidManifest.xml": f'<manifest {ANDROID} package="android"/>',
                   "res/values/attrs.xml": f"<resources>{''.join(lines)}</resources>"})
    return packed(folder, ["-x"])


def write(folder: Path, files: dict[str, str]) -> None:
    """Writes texts under the folder."""
    for name, text in files.items():
        (folder / name).parent.mkdir(parents=True, exist_ok=True)
        (folder / name).write_text(text)


def packed(folder: Path, flags: list[str]) -> Path:
    """Has `aapt` make an APK of a folder with a manifest and resources."""
    (folder / "res").mkdir(exist_ok=True)
    found = folder / "made.apk"
    run = subprocess.run(["aapt", "package", "-f", *flags, "-M", str(folder / "AndroidManifest.xml"),
                          "-S", str(folder / "res"), "-F", str(found)], capture_output=True, text=True, check=False)
    if run.returncode:
        raise AssertionError(f"aapt makes no APK of this test's text: {run.stderr}")
    return found


def make(folder: Path, text: str, resources: dict[str, str] | None = None,
         entries: dict[str, bytes] | None = None, flags: tuple[str, ...] = ()) -> Path:
    """An APK with this manifest, these resources (by their path below res/) and these further entries of the archive.

    Without further entries it has one DEX file, that with the class La/Main;.
    """
    write(folder, {"AndroidManifest.xml": text, **{f"res/{name}": it for name, it in (resources or {}).items()}})
    # Below that version aapt would put attributes into files of their own.
    found = packed(folder, ["--min-sdk-version", "21", "-I", str(framework()), *flags])
    with zipfile.ZipFile(found, "a") as archive:
        for name, raw in ({"classes.dex": MAIN.read_bytes()} if entries is None else entries).items():
            archive.writestr(name, raw)
    return found


def with_gaps(folder: Path, text: str, resources: dict[str, str]) -> Path:
    """An APK without code whose table of resources has lists of entries with gaps, made by `aapt2`."""
    write(folder, {"AndroidManifest.xml": text, **{f"res/{name}": it for name, it in resources.items()}})
    found = folder / "made.apk"
    for words in (["compile", "--dir", str(folder / "res"), "-o", str(folder / "compiled.zip")],
                  ["link", "--enable-sparse-encoding", "--min-sdk-version", "26", "-I", str(framework()),
                   "-o", str(found), "--manifest", str(folder / "AndroidManifest.xml"), str(folder / "compiled.zip")]):
        run = subprocess.run(["aapt2", *words], capture_output=True, text=True, check=False)
        if run.returncode:
            raise AssertionError(f"aapt2 makes no APK of this test's text: {run.stderr}")
    return found


def replaced(apk: Path, changes: dict[str, bytes | None]) -> Path:
    """A copy of the APK in which entries have other bytes, or are left out where there are none."""
    found = apk.with_name("changed.apk")
    with zipfile.ZipFile(apk) as before, zipfile.ZipFile(found, "w") as after:
        for name in dict.fromkeys([*before.namelist(), *changes]):
            raw = changes[name] if name in changes else before.read(name)
            if raw is not None:
                after.writestr(name, raw)
    return found


def entry(apk: Path, name: str) -> bytes:
    """The bytes of an entry."""
    with zipfile.ZipFile(apk) as archive:
        return archive.read(name)


def dumped(apk: Path, name: str) -> list[str]:
    """The lines in which `aapt` tells compiled XML."""
    run = subprocess.run(["aapt", "dump", "xmltree", str(apk), name], check=True, capture_output=True, text=True)
    return run.stdout.splitlines()
