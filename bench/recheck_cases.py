"""Writes the cases of certificates that tools/tests rechecks: changes to one certificate, each with the answer that is due.

usage: recheck_cases.py DATA (the folder tools/tests/data/answers, with other_box.cert and empty.cert in it, which a program wrote that
was made apart from this one; writes certificate_cases.txt)

The answers come from docs/FORMATS.md and from what a table is: all that follows and nothing else, so where one row is left out just
that row is missing. Whether the first row of the table, with which every run begins, is left out, its kind and numbers tell.
"""
import hashlib
import pathlib
import sys

from certificate_cases import Row, answer, begins

FILES = ["manifest.toml", "layouts.toml", "declaration.toml", "example_lists.toml", "example_other_box.dex"]
LIVE = 14


def digest(folder):
    """The digest of the files, each with its length in front."""
    digested = hashlib.sha256()
    for name in FILES:
        content = (folder / name).read_bytes()
        digested.update(len(content).to_bytes(4, "little") + content)
    return digested.hexdigest()


def missing(row):
    """The answer to a table that lacks this row alone."""
    kind, *numbers = Row(row, 0).numbers
    is_start = kind == LIVE and numbers[-1] == 0
    return f"{'no start' if is_start else 'not closed'} {row.hex()}"


def refused(reason):
    return f"9 certificate refused: {reason}"


def cases(whole, other, of_files):
    ends = begins(whole)
    yield "whole", "0 clear"
    for one, end in zip(ends, ends[1:]):
        yield f"drop {one} {end}", refused(missing(whole[one:end]))
    for one, two, end in zip(ends, ends[1:], ends[2:]):
        swapped = whole[:one] + whole[two:end] + whole[one:two] + whole[end:]
        yield f"swap {one} {two} {end}", refused(answer(swapped))
    yield "other", refused(f"digest {other[8:40].hex()} {of_files}")
    yield "nothing", refused("magic")
    start, stranger = bytes([LIVE, 0, 0, 0, 0, 0]), bytes([LIVE, 5, 0, 0, 0, 0])
    yield "rows 0 ", refused(missing(start))
    yield f"rows 1 {stranger.hex()}", refused(f"stranger {stranger.hex()}")
    yield f"rows 1 {start[:-1].hex()}", refused("cut at 44")


def main():
    folder = pathlib.Path(sys.argv[1])
    whole, other = ((folder / name).read_bytes() for name in ("other_box.cert", "empty.cert"))
    of_files = digest(folder)
    assert whole[8:40].hex() == of_files
    lines = [f"{change}: {due}\n" for change, due in cases(whole, other, of_files)]
    (folder / "certificate_cases.txt").write_text("".join(lines))
    print(f"certificate_cases.txt: {len(lines)} cases")


if __name__ == "__main__":
    main()
