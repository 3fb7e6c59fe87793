#!/usr/bin/python3
"""Looks over the stories of drawn apps, apart from the program.

usage: story_cases.py PROGRAM FOLDER [COUNT [SEED]] (the built program, a folder to work in, how many apps, 200 where
none is named, and the first seed, 1 where none is; needs Debian's smali and androguard)

Each app is drawn from a seed (`drawn_app.py`), where it is not there yet, and has two to four classes. Where more rows
follow than ROWS, it is too large, and nothing more is looked at. Its report has to be that of `check`, with the same
status, and a story has to stand behind it for each finding: without a fault by the pages of rules and formats
(`tools/tests/story_check.py`), each of its rows in the table that `certify` writes, and the last the first arrival
there of the finding's pair at its place. Ends with status 1 at the first app of which that is not so. Prints how many
apps were flagged or too large, how many stories they have, and the length of the longest.
"""
import subprocess
import sys
from pathlib import Path

ROWS = 300_000
TOP = Path(__file__).resolve().parent.parent
sys.dont_write_bytecode = True
sys.path[:0] = [str(TOP / "bench"), str(TOP / "tools")]
from drawn_app import drawn  # noqa: E402
from tests.story_check import ARRIVE, blocks_of, fault_of, rows_of  # noqa: E402
from vet_tools import forms, report  # noqa: E402
from vet_tools.certificate import Certificate, node_of, row_of  # noqa: E402
from vet_tools.dex_code import DexCode  # noqa: E402


def answer(program, *words):
    ran = subprocess.run([program, *map(str, words)], capture_output=True)
    return ran.returncode, ran.stdout.decode()


def first_arrivals(folder, rows):
    """The first arrival of each pair at each place, by the line of the report that tells it."""
    code = DexCode.read(forms.dex_paths(folder, 1))
    names = forms.lists_of(folder).categories
    found = {}
    for row in rows:
        if row[0] == ARRIVE:
            node, _ = node_of(row[3:])
            place = f"{code.numbered[node.method]} @{node.pc}"
            found.setdefault(f"{names[row[1]]} -> {names[row[2]]} at {place}", row)
    return found


def draw(folder, seed):
    """Makes the folder of the app of this seed, with lists of at most so many rows."""
    drawn(folder, seed, 2 + seed % 3)
    lists = Path(folder, "lists.toml")
    lists.write_text(lists.read_text().replace("rows = 4000000\n", f"rows = {ROWS}\n"))


def looked_over(program, folder):
    """How long the stories of an app are, None where it is too large. Raises `SystemExit` where one is wrong."""
    status, said = answer(program, "check", folder, 1)
    told, text = answer(program, "story", folder)
    if status != told or not text.startswith(said):
        raise SystemExit(f"{folder}: story ended with {told}: {text[:200]!r}, check with {status}: {said[:200]!r}")
    blocks = blocks_of(text[len(said):])
    if "\ntoo large: " in said:
        return None
    findings = [str(one) for one in report.parse(said).findings]
    if len(blocks) != len(findings):
        raise SystemExit(f"{folder}: {len(findings)} findings and {len(blocks)} stories")
    if not findings:
        return []
    answer(program, "certify", folder, f"{folder}.cert")
    table = list(Certificate.read(f"{folder}.cert").rows())
    firsts, table = first_arrivals(Path(folder), table), set(table)
    for finding, block in zip(findings, blocks):
        rows = [row_of(row) for row in rows_of(block)]
        fault = fault_of(block) or next((f"not in the table: {row}" for row in rows if row not in table), "")
        if fault or rows[-1] != firsts[finding]:
            raise SystemExit(f"{folder}: {finding}: {fault or 'another arrival'}")
    return [len(block) for block in blocks]


def main():
    program, work = sys.argv[1], sys.argv[2]
    count, first = (int(n) for n in sys.argv[3:] + ["200", "1"][len(sys.argv) - 3:])
    lengths = []
    for seed in range(first, first + count):
        folder = f"{work}/{seed}"
        if not Path(folder, "classes.dex").exists():
            draw(folder, seed)
        lengths.append(looked_over(program, folder))
    flagged = [one for one in lengths if one]
    print(f"{count} apps, {len(flagged)} flagged, {lengths.count(None)} too large, {sum(map(len, flagged))} stories, "
          f"the longest of {max(map(max, flagged), default=0)} lines: all as they are to be")


if __name__ == "__main__":
    main()
