"""The archive that an APK is: its entries, read within limits, and what of it the folder of an app has no place for."""
from __future__ import annotations

import re
import struct
import zipfile
from dataclasses import dataclass, field
from pathlib import Path

from vet_tools import binary_xml
from vet_tools.refusal import Refusal, readable
from vet_tools.shown import shown
from vet_tools.toml_text import LONGEST_FILE

MOST_DEX = 16
LONGEST_TABLE = 268_435_456
# All compiled XML of one APK together, so that an archive of a few bytes can't ask for all memory.
LONGEST_XML = 268_435_456
READ = "035"
END = b"PK\x05\x06"
LONGEST_END = 22 + 65_535


@dataclass
class Contents:
    """What of an archive matters by its first bytes: compiled XML, machine code, and code that no device loads."""
    compiled: list[str] = field(default_factory=list)
    native: list[str] = field(default_factory=list)
    other_code: list[str] = field(default_factory=list)
    packed: list[str] = field(default_factory=list)


class Archive:
    """An APK that is open for reading. What a device would refuse or read otherwise than Python does is a `Refusal`."""

    def __init__(self, path: Path) -> None:
        self.path = path
        try:
            self.zip = zipfile.ZipFile(path)
        except FileNotFoundError:
            raise Refusal(f"there is no file {readable(path)}") from None
        except IsADirectoryError:
            raise Refusal(f"{readable(path)} is a folder; name the APK itself") from None
        except (OSError, zipfile.BadZipFile, ValueError, NotImplementedError, struct.error) as error:
            raise Refusal(f"{readable(path)} can't be read as an APK: it is no ZIP archive, or was cut ({error})"
                          ) from None
        self.names: dict[str, None] = {}
        self._refuse_other_readings()

    def _refuse_other_readings(self) -> None:
        """A device refuses a name that stands twice, and takes the list of entries where the archive's end says."""
        for name in self.zip.namelist():
            if name in self.names:
                raise Refusal(f"the archive has {shown(name)} twice, so a device takes no such APK")
            self.names[name] = None
        with self.path.open("rb") as raw:
            raw.seek(max(0, self.path.stat().st_size - LONGEST_END))
            tail = raw.read()
        told = struct.unpack_from("<I", tail, tail.rindex(END) + 16)[0]
        if told != self.zip.start_dir:
            raise Refusal("the archive's list of entries is not where its end says; fetch the APK anew")

    def read(self, name: str, most: int) -> bytes:
        """The bytes of an entry, of which there may be `most`."""
        if name not in self.names:
            raise Refusal(f"the archive has no {shown(name)}")
        size = self.zip.getinfo(name).file_size
        if size > most:
            raise Refusal(f"{shown(name)} has {size} bytes, and at most {most} are read")
        return self._bytes(name, -1)

    def head(self, name: str) -> bytes:
        """The first eight bytes of an entry, or fewer where it has no more."""
        return self._bytes(name, 8)

    def _bytes(self, name: str, count: int) -> bytes:
        info = self.zip.getinfo(name)
        stored = info.compress_type == zipfile.ZIP_STORED
        whole = info.file_size == info.compress_size if stored else info.compress_type == zipfile.ZIP_DEFLATED
        if not whole:
            raise Refusal(f"{shown(name)} is packed in a way that a device reads otherwise; have the APK built anew")
        try:
            with self.zip.open(name) as stream:
                return stream.read(count)
        except Exception as error:  # a broken entry raises what the module that unpacks it raises, as `zlib.error`
            raise Refusal(f"{shown(name)} can't be read from the archive: it is damaged, or under a password "
                          f"({type(error).__name__})") from None

    def dex_names(self) -> list[str]:
        """The DEX files that a device loads, in its order: `classes.dex`, `classes2.dex`, .. up to the first gap."""
        found: list[str] = []
        while (name := f"classes{len(found) + 1 if found else ''}.dex") in self.names:
            found.append(name)
        return found

    def contents(self) -> Contents:
        """What the entries are, told by their first bytes and not by their names."""
        found = Contents()
        loaded = set(self.dex_names())
        for info in self.zip.infolist():
            if info.filename in loaded or info.file_size < 8:
                continue
            head = self.head(info.filename)
            if head[:4] == b"\x7fELF":
                found.native.append(info.filename)
            elif head[:4] == b"dex\n" or re.search(r"\.(dex|jar)$", info.filename):
                found.other_code.append(info.filename)
            elif re.search(r"\.(apk|apks|xapk)$", info.filename):
                found.packed.append(info.filename)
            elif binary_xml.looks_compiled(head, info.file_size):
                found.compiled.append(info.filename)
        return found

    def dex_files(self) -> dict[str, bytes]:
        """The DEX files that a device loads, as the folder takes them: 1 to 16, none above 16,777,216 bytes."""
        names = self.dex_names()
        if not names:
            raise Refusal(self._without_code())
        if len(names) > MOST_DEX:
            raise Refusal(f"the APK has {len(names)} DEX files, and the program reads at most {MOST_DEX}")
        return {name: self.read(name, LONGEST_FILE) for name in names}

    def _without_code(self) -> str:
        if "AndroidManifest.xml" not in self.names:
            parts = [name for name in self.names if name.endswith(".apk")]
            if parts:
                return (f"this is a set of APKs and no APK: take {shown(min(parts, key=len))} or another one out of it "
                        "with unzip, and unpack each by itself")
            if "base/manifest/AndroidManifest.xml" in self.names:
                return "this is a bundle (AAB) and no APK: make a universal APK of it with bundletool, and unpack that"
            return "the archive has no AndroidManifest.xml, so it is no APK"
        return "the APK has no classes.dex, so it has no code to judge"


def version(dex: bytes) -> str:
    """The version of a DEX file, as its first bytes say, or `none` where they begin no DEX file."""
    found = re.match(rb"dex\n(\d{3})\x00", dex[:8])
    return found.group(1).decode() if found else "none"
