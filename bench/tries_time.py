"""Times the program on methods of 8,000 to 64,000 lines with as many tries: side by side, of one line each, and half as many as
lines, sixteen one inside the other.

usage: tries_time.py VET FOLDER (the program that `./vet --prove` built, and a folder to work in)

The files are that of a test case with another code item behind its end. Prints for each the size of its DEX file, the least
time of five runs, the ratio to the one before, and the line that the program printed.
"""
import os
import shutil
import struct
import sys

from runs import time_check

program, folder = sys.argv[1], sys.argv[2]
here = os.path.dirname(os.path.abspath(__file__))
base = open(f'{here}/../tools/tests/data/answers/empty.dex', 'rb').read()
example = f'{here}/../examples/device_id_posted'


def leb(n, size=1):
    out = bytearray()
    while n > 0x7F or len(out) + 1 < size:
        out.append(n & 0x7F | 0x80)
        n >>= 7
    return bytes(out) + bytes([n])


def read_leb(text, at):
    n = shift = 0
    while True:
        n |= (text[at] & 0x7F) << shift
        shift += 7
        at += 1
        if text[at - 1] < 0x80:
            return n, at


def code_offset_at(text):
    """Where the offset of the one method's code stands, and how many bytes it has."""
    class_defs = struct.unpack_from('<I', text, 100)[0]
    at = struct.unpack_from('<I', text, class_defs + 24)[0]
    for _ in range(6):
        _, at = read_leb(text, at)
    _, end = read_leb(text, at)
    return at, end - at


def dex_of(lines, tries):
    code = struct.pack('<4H2I', 2, 2, 0, len(tries), 0, lines + 1) + bytes(2 * lines) + b'\x0e\x00'
    code += bytes(len(code) % 4)
    for start, count in tries:
        code += struct.pack('<I2H', start, count, 1)
    code += leb(1) + leb(0) + leb(lines)
    at, size = code_offset_at(base)
    text = bytearray(base + bytes(-len(base) % 4))
    text[at:at + size] = leb(len(text), size)
    text += code
    text[32:36] = struct.pack('<I', len(text))
    return bytes(text)


def app(title, lines, tries):
    path = f'{folder}/{title}_{lines}'
    shutil.rmtree(path, ignore_errors=True)
    shutil.copytree(example, path)
    with open(f'{path}/classes.dex', 'wb') as out:
        out.write(dex_of(lines, tries))
    return path


SHAPES = [
    ('beside', lambda lines: [(i, 1) for i in range(lines)]),
    ('inside', lambda lines: [(g + i, 32 - 2 * i) for g in range(0, lines, 32) for i in range(16)]),
]
for title, tries_of in SHAPES:
    time_check(program, ((f'{n} lines, tries {title}', app(title, n, tries_of(n)), 'classes.dex') for n in [8000, 16000, 32000, 64000]))
