"""Times `dex_list count` on DEX files of 1,000 to 8,000 methods beside Debian's `dexdump -f`, and on large hostile files.

usage: reader_time.py DEX_LIST FOLDER (the program that `rt run` built, and a folder to work in)

Prints for each file its size, the least time of nine runs, and the greatest memory, less that of an empty run.
"""
import os
import struct
import subprocess
import sys
import time

from smali_apps import assemble

program, folder = sys.argv[1], sys.argv[2]


def header(size, **tables):
    data = bytearray(112)
    data[:8] = b'dex\n035\0'
    struct.pack_into('<III', data, 32, size, 112, 0x12345678)
    for name, at in {'strings': 56, 'types': 64, 'protos': 72, 'fields': 80, 'methods': 88, 'classes': 96}.items():
        struct.pack_into('<II', data, at, *tables.get(name, (0, 0)))
    return bytes(data)


def hostile():
    """Each with the answer that it must have."""
    full = 16 * 1024 * 1024
    yield 'zeros', header(full) + bytes(full - 112), 'strings 0 types 0 protos 0 fields 0 methods 0 classes 0'
    yield 'rows_of_zeros', header(full, strings=(2 ** 32 - 1, 112)) + bytes(full - 112), 'outside at 112'
    # as many string ids as there is room for, each of a text of nothing at byte 112
    rows = (full - 120) // 4
    size = 120 + 4 * rows
    data = header(size, strings=(rows, 120)) + bytes(8) + struct.pack('<I', 112) * rows
    yield 'strings_of_one_text', data, f'strings {rows} types 0 protos 0 fields 0 methods 0 classes 0'
    # four strings of one text of nearly 16 MiB pass the limit at the third
    size = full
    text = header(size, strings=(4, 112)) + struct.pack('<I', 128) * 4 + b'\1' + b'A' * (size - 130) + b'\0'
    yield 'one_text_four_times', text, 'too many names'
    for classes, said in ((65536, 'strings 1 types 1 protos 0 fields 0 methods 0 classes 65536'), (65537, 'too many class_defs')):
        row = struct.pack('<IIIIIIII', 0, 1, 0xFFFFFFFF, 0, 0xFFFFFFFF, 0, 0, 0)
        size = 124 + 32 * classes
        start = struct.pack('<IIHBB', 122, 0, 0, 0, 0)
        data = header(size, strings=(1, 112), types=(1, 116), classes=(classes, 124)) + start + row * classes
        yield f'classes_{classes}', data, said
    yield 'shared_class_data', shared(60000, 200), 'too many units'


def leb(n):
    out = bytearray()
    while n > 127:
        out.append(n & 127 | 128)
        n >>= 7
    return bytes(out + bytes([n]))


def shared(units, classes):
    """Class_defs that share one class data: a method with one code item."""
    strings, types, protos, methods, table = 112, 116, 120, 132, 140
    text = table + 32 * classes
    code = text + 4
    lists = code + 16 + 2 * units
    item = bytes([0, 0, 1, 0, 0, 1]) + leb(code)
    row = struct.pack('<IIIIIIII', 0, 1, 0xFFFFFFFF, 0, 0xFFFFFFFF, 0, lists, 0)
    size = lists + len(item)
    head = header(size, strings=(1, strings), types=(1, types), protos=(1, protos), methods=(1, methods), classes=(classes, table))
    ids = struct.pack('<II', text, 0) + struct.pack('<III', 0, 0, 0) + struct.pack('<HHI', 0, 0, 0)
    return head + ids + row * classes + bytes(4) + struct.pack('<HHHHII', 1, 0, 0, 0, 0, units) + bytes(2 * units) + item


def measured(words):
    best, most = 1e9, 0
    for _ in range(9):
        start = time.perf_counter()
        done = subprocess.run(['/usr/bin/time', '-f', '%M'] + words, capture_output=True, check=False)
        best = min(best, time.perf_counter() - start)
        most = max(most, int(done.stderr.split()[-1]))
    return best * 1000, most, done.stdout


def main():
    os.makedirs(folder, exist_ok=True)
    empty = measured([program, 'count'])
    print(f'no file: {empty[0]:.1f} ms, {empty[1]} KB')
    for methods in (1000, 2000, 4000, 8000):
        path = f'{folder}/{methods}.dex'
        assemble(methods, path)
        size = os.path.getsize(path)
        ours, dump = measured([program, 'count', path]), measured(['dexdump', '-f', path])
        print(f'{methods} methods, {size} bytes: {ours[0]:.1f} ms, {(ours[1] - empty[1]) * 1024 / size:.1f} times the file; '
              f'dexdump -f {dump[0]:.1f} ms')
    for name, data, said in hostile():
        path = f'{folder}/{name}.dex'
        with open(path, 'wb') as out:
            out.write(data)
        ours = measured([program, 'count', path])
        got = ours[2].decode().split(': ', 1)[1].strip()
        mark = 'as it must' if got == said else f'NOT {said}'
        print(f'{name}, {len(data)} bytes: {ours[0]:.1f} ms, {(ours[1] - empty[1]) * 1024 / len(data):.1f} times the file: {got}, {mark}')
    here = os.path.dirname(os.path.abspath(__file__))
    whole = open(f'{here}/../crates/dex_list/data/tries.dex', 'rb').read()
    names = []
    for cut in range(len(whole)):
        path = f'{folder}/cut{cut}.dex'
        with open(path, 'wb') as out:
            out.write(whole[:cut])
        names.append(path)
    said = subprocess.run([program, 'count'] + names, capture_output=True, check=True).stdout.decode().splitlines()
    want = ['magic'] * 8 + ['outside at 0'] * 104 + ['header file_size'] * (len(whole) - 112)
    got = [line.split(': ', 1)[1] for line in said]
    print(f'cut at each of {len(whole)} bytes: {"as it must" if got == want else "NOT as it must"}')


main()
