"""`tools/make-lists`: makes `lists/android.toml` from the tables that people edit, and looks for faults in them."""
from __future__ import annotations

import argparse
import sys
import zipfile
from pathlib import Path

from vet_tools import lists_lint
from vet_tools.command import Words
from vet_tools.lists_javap import NoJavap
from vet_tools.lists_lint import Fault
from vet_tools.lists_model import TableFault, Tables
from vet_tools.lists_shapes import declared_by, known_shapes, shape_faults
from vet_tools.lists_tables import read_tables
from vet_tools.lists_toml import lists_text
from vet_tools.progress import tell
from vet_tools.whole_file import write_whole

TOP = Path(__file__).resolve().parents[2]
LONGEST_FILE = 16_777_216
EXAMPLE = """\
example:
  tools/make-lists                          makes lists/android.toml of the tables in lists/
  tools/make-lists --lint                   only looks for faults in the tables
  tools/make-lists --lint --jar android.jar also against the classes of an SDK

status: 0 made, or no fault; 1 a fault, each with the line of the table that is to be mended; 4 no command
"""


def arguments(words: list[str] | None) -> argparse.Namespace:
    """The words of the command."""
    parser = Words(prog="tools/make-lists", description=__doc__, epilog=EXAMPLE,
                   formatter_class=argparse.RawDescriptionHelpFormatter)
    parser.add_argument("--tables", type=Path, default=TOP / "lists", help="the folder of the tables")
    parser.add_argument("-o", "--output", type=Path, help="where the form goes (android.toml beside the tables)")
    parser.add_argument("--lint", action="store_true", help="look for faults and write nothing")
    parser.add_argument("--jar", type=Path, help="an android.jar, whose classes the tables are held against")
    return parser.parse_args(words)


def library_faults(tables: Tables, jar: Path | None) -> list[Fault]:
    """The faults that the tables alone show, and those that the JDK or a jar shows; without a JDK the former only."""
    tell("make-lists: reading class files")
    try:
        shapes = known_shapes(tables, jar)
    except NoJavap as missing:
        tell("")
        print(f"make-lists: the classes were held against no JDK: {missing}", file=sys.stderr)
        return lists_lint.faults(tables)
    tell("make-lists: looking for faults")
    found = lists_lint.faults(tables, declared_by(shapes)) + shape_faults(tables, shapes)
    tell("")
    return found


def run(words: argparse.Namespace) -> int:
    """Reads, looks for faults, and writes where there are none. Raises TableFault and OSError."""
    if words.jar and not (words.jar.is_file() and zipfile.is_zipfile(words.jar)):
        print(f"make-lists: {words.jar} is no jar: give the android.jar of an SDK", file=sys.stderr)
        return 1
    tables = read_tables(words.tables)
    found = library_faults(tables, words.jar)
    for fault in found:
        print(fault)
    if found:
        print(f"make-lists: {len(found)} faults, so nothing is made", file=sys.stderr)
        return 1
    if words.lint:
        return 0
    text = lists_text(tables)
    if len(text.encode()) > LONGEST_FILE:
        print(f"make-lists: the form would have more than {LONGEST_FILE} bytes", file=sys.stderr)
        return 1
    write_whole(words.output or words.tables / "android.toml", text)
    return 0


def main(words: list[str] | None = None) -> int:
    """Runs the command; gives its status."""
    try:
        return run(arguments(words))
    except (TableFault, OSError) as fault:
        print(f"make-lists: {fault}", file=sys.stderr)
        return 1
