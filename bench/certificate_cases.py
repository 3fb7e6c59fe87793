"""Writes the cases of crates/table_cases: changed certificates, each with the answer that is due by the page of formats.

usage: certificate_cases.py DATA (the data folder of the crate, with unlisted_call.cert in it; writes each_kind.cert,
each_cell_kind.cert and the files of cases)

The reader below follows docs/FORMATS.md and nothing else. A case is a line `CHANGE: ANSWER`: `cut N` keeps the first N bytes of
the file, `set AT BYTE` changes one, and `hex DIGITS` gives all bytes.
"""
import hashlib
import pathlib
import sys

CONTEXTS = {0: "nn", 1: "nn", 2: "nn", 3: "n0", 4: "n0", 5: "nn", 6: "nnnn"}
ROWS = {
    1: "N", 2: "NnS", 3: "NnPl", 4: "SnS", 5: "SnS", 6: "nS", 7: "nPl", 8: "NA", 9: "AN", 10: "NSPl", 11: "ASPl",
    12: "AeS", 13: "AePl", 14: "nl", 15: "nlPl", 16: "S", 17: "SPl", 18: "llN", 19: "Nc", 20: "NU",
    21: "Nnl", 22: "nl", 23: "Snl", 24: "Sl", 25: "Ael",
}
SITES = {0: "N", 1: "Cn", 2: "n", 3: "n", 4: "nn"}
FIRST, SECOND = b"VETCERT2", b"VETCELL1"
# By the first eight bytes: the kinds of rows and the kinds of sites.
KINDS = {FIRST: range(1, 21), SECOND: (1, 2, 4, 5, 6, 8, 9, 12, 14, 16, 18, 19, 20, 21, 22, 23, 24, 25)}
SITE_KINDS = {FIRST: range(4), SECOND: range(5)}

# A row of each kind, by their kinds, from certificates that a program wrote which was made apart from this one.
FOREIGN_ROWS = bytes.fromhex(
    "01060300000000000000010000000c000000040000000000000002060300000000000000010000000c00000004000000030000000000"
    "010000060300000000000000010000000c000000040000000000000003060300000000000000010000000c0000000400000008000000"
    "0100000002010000000000000000040000000000000100000001000000000000000100000000060300000000000000010000000c0000"
    "0004000000000000000500060300000000000000010000000c0000000400000000000000010000000000000000000100000001000000"
    "0000000006000000000000010000000100000000000000000000000700000000020100000000000000000805010000000c0000000300"
    "000000000000060300000000000000010000000c0000000400000009060300000000000000010000000c000000040000000501000000"
    "0c00000003000000000000000a060300000000000000010000000c000000040000000600000000000000000001000000010000000500"
    "000003020000000100000000000000000b060300000000000000010000000c0000000400000000000000000001000000010000000500"
    "000003020000000100000000000000000c00000000000100000001000000010005010000000000000000000000040000000d00000000"
    "00010000000100000001020000000000000000000e00000000000f000000000202010000000000000000100006030000000000000001"
    "0000000c0000000400000000000000110000000000000100000001000000050000000302000000010000000000000000120002000000"
    "00000100000001000000110000001300000000000100000000000000000000000214060300000000000000010000000c000000040000"
    "0000000000000c000000"
)
# The kind of a row, and rows that a byte or the end of the file cuts off; the last one is whole.
ODD_ROWS = (
    b"\0", b"\x15",
    # A context, a site and a use of no kind.
    b"\1\7", b"\x10\4", b"\x14" + bytes(17) + b"\2",
    # The second number of a handed context is 0, in each of its bytes.
    b"\1\3" + b"\1\0\0\0" + b"\0\1", b"\1\3" + b"\1\0\0\0" + b"\0\0",
    # Six keys, and the same in an open path.
    b"\7" + bytes(4) + b"\6", b"\7" + bytes(4) + b"\x4d", b"\7" + bytes(4) + b"\x86", b"\7" + bytes(4) + b"\x85",
    # An end that is neither return nor throw, and causes of none.
    b"\x0c" + bytes(13) + b"\2", b"\x13" + bytes(18), b"\x13" + bytes(17) + b"\4", b"\x13" + bytes(17) + b"\3",
)


class Fault(Exception):
    pass


class Row:
    """Reads one row from an offset on, as the list of its numbers. The first eight bytes tell which rows there are."""

    def __init__(self, data, at):
        self.data, self.at, self.numbers, self.magic = data, at, [], data[:8]
        kind = self.byte(lambda n: n in KINDS[self.magic])
        self.fields(ROWS[kind])

    def next(self):
        if self.at >= len(self.data):
            raise Fault("cut")
        self.at += 1
        return self.data[self.at - 1]

    def byte(self, allowed=lambda n: True):
        n = self.next()
        if not allowed(n):
            raise Fault("bad")
        self.numbers.append(n)
        return n

    def number(self, of=lambda n: True):
        n = 0
        for place in range(4):
            n += self.byte_of_zero(of) << 8 * place
        self.numbers.append(n)

    def byte_of_zero(self, of):
        n = self.next()
        if not of(n):
            raise Fault("bad")
        return n

    def fields(self, shape):
        for field in shape:
            if field == "n":
                self.number()
            elif field == "0":
                self.number(lambda n: n == 0)
            elif field == "l":
                self.byte()
            elif field == "e":
                self.byte(lambda n: n < 2)
            elif field == "c":
                self.byte(lambda n: 1 <= n <= 3)
            elif field == "C":
                self.fields(CONTEXTS[self.byte(lambda n: n in CONTEXTS)])
            elif field == "A":
                self.fields("Cn")
            elif field == "N":
                self.fields("An")
            elif field == "S":
                self.fields(SITES[self.byte(lambda n: n in SITE_KINDS[self.magic])])
            elif field == "P":
                self.fields("n" * (self.byte(lambda n: n % 128 <= 5) % 128))
            elif field == "U":
                self.byte(lambda n: n < 2)
                self.fields("n")


def answer(data):
    """The answer that the page of formats gives to these bytes."""
    head = data[:8]
    if head == b"VETCERT1":
        return "version"
    if head not in KINDS:
        return "magic"
    if len(data) < 40:
        return "cut at 8"
    if len(data) < 44:
        return "cut at 40"
    at, last = 44, None
    for _ in range(int.from_bytes(data[40:44], "little")):
        try:
            row = Row(data, at)
        except Fault as fault:
            return f"{fault} at {at}"
        if last is not None and not last < row.numbers:
            return f"order at {at}"
        at, last = row.at, row.numbers
    return "ok" if at == len(data) else f"rest at {at}"


def begins(data):
    """The offsets at which the rows of a certificate begin, and its end."""
    at, found = 44, [44]
    for _ in range(int.from_bytes(data[40:44], "little")):
        at = Row(data, at).at
        found.append(at)
    return found


def certificate(magic, rows):
    return magic + bytes(range(32)) + len(rows).to_bytes(4, "little") + b"".join(rows)


def each_kind(magic):
    """A row of each kind, with numbers that tell the fields apart, and every kind of context, site, path and use."""
    count, places = [0x01020304], {"C": 0, "S": 0, "P": 0, "U": 0}
    keys = [0, 1, 2, 3, 4, 5, 128, 129, 130, 131, 132, 133]

    def number():
        count[0] += 0x0101
        return count[0].to_bytes(4, "little")

    def turn(part, kinds):
        places[part] += 1
        return kinds[places[part] % len(kinds)]

    def spelled(shape):
        made = b""
        for field in shape:
            if field == "n":
                made += number()
            elif field == "0":
                made += bytes(4)
            elif field == "l":
                made += bytes([count[0] % 251])
            elif field == "e":
                made += bytes([count[0] % 2])
            elif field == "c":
                made += bytes([3])
            elif field == "C":
                kind = turn("C", range(7))
                made += bytes([kind]) + spelled(CONTEXTS[kind])
            elif field == "A":
                made += spelled("Cn")
            elif field == "N":
                made += spelled("An")
            elif field == "S":
                kind = turn("S", SITE_KINDS[magic])
                made += bytes([kind]) + spelled(SITES[kind])
            elif field == "P":
                first = turn("P", keys)
                made += bytes([first]) + spelled("n" * (first % 128))
            elif field == "U":
                made += bytes([turn("U", range(2))]) + spelled("n")
        return made

    return certificate(magic, [bytes([kind]) + spelled(ROWS[kind]) for kind in KINDS[magic]])


def cases(data, values):
    """Each cut, and each byte changed in turn."""
    for n in range(len(data) + 1):
        yield f"cut {n}", data[:n]
    for at, was in enumerate(data):
        for value in values(was):
            yield f"set {at} {value}", data[:at] + bytes([value]) + data[at + 1 :]


def rows_of(data):
    """The bytes of each row of a certificate."""
    ends = begins(data)
    return [data[one:other] for one, other in zip(ends, ends[1:])]


def with_rows(head, rows, count=None):
    """A certificate with these first 40 bytes."""
    return head + (len(rows) if count is None else count).to_bytes(4, "little") + b"".join(rows)


def counted(data):
    """Rows exchanged, twice and missing; great counts; what stands behind the last row."""
    rows, head = rows_of(data), data[:40]

    def of(rows, count=None):
        return with_rows(head, rows, count)

    last = len(rows) - 1
    yield of([])
    yield of([], 1)
    yield of([], 0xFFFFFFFF)
    yield of(rows[-2:], 0xFFFFFFFF)
    yield of([rows[last], rows[last - 1]])
    yield of([rows[last - 1], rows[last], rows[last]])
    yield of([rows[last - 1], rows[last - 1], rows[last]])
    yield of([rows[0], rows[2], rows[1]])
    yield of(rows[1:3])
    yield of(rows[-2:], 1)
    yield of(rows[-2:]) + b"\0"
    yield of(rows[-2:]) + rows[last]
    yield of([]) + b"\0"


def spelled_out(data):
    """Those, long paths, and other first eight bytes."""
    yield from counted(data)

    def of(rows):
        return with_rows(data[:40], rows)

    path = bytes([7, 1, 0, 0, 0])
    for first in [5, 6, 77, 127, 128, 133, 134, 205, 255]:
        yield of([path + bytes([first]) + bytes(4 * (first % 128)) + b"\2"])
        yield of([path + bytes([first])])
    yield b"VETCERT1"
    yield b"VETCERT1" + data[8:]
    yield b"VETCERT3" + data[8:]
    yield b"vetcert2" + data[8:]
    yield b"VETCERT" + data[8:]
    yield b""


def apart():
    """Certificates with the digest 0: rows of another program, a byte more, rows exchanged or twice, and odd rows."""
    def of(count, rows):
        return b"VETCERT2" + bytes(32) + count.to_bytes(4, "little") + rows

    yield of(20, FOREIGN_ROWS)
    yield b"VETCERT3"
    first, second = (b"\x0e\5\0\0\0" + state for state in (b"\0", b"\1"))
    yield of(1, first + b"\7")
    yield of(2, second + first)
    yield of(2, second + second)
    yield of(0xFFFFFFFF, b"")
    for row in ODD_ROWS:
        yield of(1, row)


def of_the_second(kinds, cells):
    """Certificates of the second set; rows of each set under both; and what the first refuses at its first byte."""
    yield from counted(cells)
    yield SECOND
    for magic in b"VETCELL0", b"VETCELL2", b"vetcell1", b"VETCELL", b"VETCEL1\0":
        yield magic + cells[8:]
    yield SECOND + kinds[8:]
    yield FIRST + cells[8:]
    for magic in FIRST, SECOND:
        head = magic + bytes(32)
        yield with_rows(head, [])
        for row in (*rows_of(kinds), *rows_of(cells)):
            yield with_rows(head, [row])
            yield with_rows(head, [row[:1]], 1)
        for kind in range(26, 256, 23):
            yield with_rows(head, [bytes([kind])])
        # An object handed to the library: by a site of each kind and one more, whole and after the byte of its kind.
        for site in range(6):
            row = bytes([16, site]) + bytes({0: 17, 1: 13, 4: 8}.get(site, 4))
            yield with_rows(head, [row])
            yield with_rows(head, [row[:2]])
        for row in ODD_ROWS:
            yield with_rows(head, [row])
    # The order of sites and of kinds: that of a step in whatever context is behind all others.
    handed = [bytes([16, site]) + bytes({0: 17, 1: 13, 4: 8}.get(site, 4)) for site in range(5)]
    yield with_rows(SECOND + bytes(32), handed)
    yield with_rows(SECOND + bytes(32), [handed[4], handed[3]])
    labels = [bytes([22]) + bytes(5), bytes([23, 2]) + bytes(9), bytes([24, 2]) + bytes(5)]
    yield with_rows(SECOND + bytes(32), [handed[4], *labels])
    yield with_rows(SECOND + bytes(32), [labels[0], handed[4]])
    yield with_rows(SECOND + bytes(32), [labels[0], labels[0]])


def write(path, made):
    lines = [f"{change}: {answer(data)}\n" for change, data in made]
    path.write_text("".join(lines))
    print(f"{path.name}: {len(lines)} cases")


def main():
    folder = pathlib.Path(sys.argv[1])
    call = (folder / "unlisted_call.cert").read_bytes()
    kinds, cells = each_kind(FIRST), each_kind(SECOND)
    for data in call, kinds, cells:
        assert answer(data) == "ok", answer(data)
    (folder / "each_kind.cert").write_bytes(kinds)
    (folder / "each_cell_kind.cert").write_bytes(cells)
    write(folder / "unlisted_call.txt", cases(call, lambda was: [(was + 1) % 256, was ^ 128]))
    write(folder / "each_kind.txt", cases(kinds, lambda was: [(was + 1) % 256]))
    write(folder / "each_cell_kind.txt", cases(cells, lambda was: [(was + 1) % 256]))
    write(folder / "spelled.txt", ((f"hex {data.hex()}", data) for data in (*spelled_out(call), *apart())))
    write(folder / "cells.txt", ((f"hex {data.hex()}", data) for data in of_the_second(kinds, cells)))
    print("each_kind.cert", hashlib.sha256(kinds).hexdigest())
    print("each_cell_kind.cert", hashlib.sha256(cells).hexdigest())


if __name__ == "__main__":
    main()
