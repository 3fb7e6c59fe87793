"""Writes small hostile DEX files, made of a good one, and prints what `dex_list list` must say of each.

usage: hostile_files.py GOOD.dex FOLDER

Each answer is worked out by hand from the Android documentation and the order of the reading: the header, the six
tables in their order with what their rows name, then class data with its code items.
"""
import struct
import subprocess
import sys

good = open(sys.argv[1], 'rb').read()
folder = sys.argv[2]


def u4(data, at):
    return struct.unpack_from('<I', data, at)[0]


def u2(data, at):
    return struct.unpack_from('<H', data, at)[0]


def put(data, at, value, width=4):
    return data[:at] + value.to_bytes(width, 'little') + data[at + width:]


FIELDS = {'string_ids': 56, 'type_ids': 64, 'proto_ids': 72, 'field_ids': 80, 'method_ids': 88, 'class_defs': 96}
OFF = {name: u4(good, at + 4) for name, at in FIELDS.items()}
SIZE = {name: u4(good, at) for name, at in FIELDS.items()}
FULL = 0xFFFFFFFF


def files():
    yield 'empty', b'', 'magic'
    yield 'seven_bytes', good[:7], 'magic'
    yield 'version_037', put(good, 6, ord('7'), 1), 'magic'
    yield 'magic_alone', good[:8], 'outside at 0'
    yield 'header_cut', good[:111], 'outside at 0'
    yield 'last_byte_missing', good[:-1], 'header file_size'
    yield 'size_below_header', put(good, 32, 111), 'header file_size'
    yield 'size_full', put(good, 32, FULL), 'header file_size'
    yield 'header_size_full', put(good, 36, FULL), 'header header_size'
    yield 'endian_reversed', put(good, 40, 0x78563412), 'header endian_tag'
    # link, map and data are not looked at; a table with no rows is not looked at
    for name in FIELDS:
        if SIZE[name]:
            yield f'{name}_size_full', put(good, FIELDS[name], FULL), f'outside at {OFF[name]}'
            yield f'{name}_off_full', put(good, FIELDS[name] + 4, FULL), f'outside at {FULL}'
    yield 'string_far_away', put(good, OFF['string_ids'], FULL), f'leb at {FULL}'
    # the checksum and the signature, bytes 8 to 31, are not looked at
    endless = good[:8] + b'\xff' * 24 + good[32:]
    yield 'leb_never_ends', put(endless, OFF['string_ids'], 8), 'leb at 8'
    last = len(good) - 2
    yield 'text_never_ends', put(good[:last] + b'\x01A', OFF['string_ids'], last), f'text at {last + 1}'
    yield 'type_at_the_size', put(good, OFF['type_ids'] + 4, SIZE['string_ids']), 'index in type_ids row 1'
    yield 'shorty_at_the_size', put(good, OFF['proto_ids'], SIZE['string_ids']), 'index in proto_ids row 0'
    yield 'params_cut', put(good, OFF['proto_ids'] + 8, len(good) - 3), f'outside at {len(good) - 3}'
    yield 'method_of_no_class', put(good, OFF['method_ids'], SIZE['type_ids'], 2), 'index in method_ids row 0'
    yield 'superclass_at_the_size', put(good, OFF['class_defs'] + 8, SIZE['type_ids']), 'index in class_defs row 0'
    yield 'class_data_far_away', put(good, OFF['class_defs'] + 24, FULL), f'leb at {FULL}'
    # the first code item with try items: found by what dexdump says of it, its handler offset moved by one
    dump = subprocess.run(['dexdump', '-d', sys.argv[1]], capture_output=True, check=True).stdout.decode()
    method = dump[:dump.index('catches       : 2')]
    code = int(method[method.rindex('|[') + 2:][:6], 16)
    units = u4(good, code + 12)
    tries = code + 16 + 2 * units + (2 if units % 2 else 0)
    first = u2(good, tries + 6)
    yield 'handler_in_the_middle', put(good, tries + 6, first + 1, 2), f'index in tries row {code}'
    yield 'units_full', put(good, code + 12, FULL), f'outside at {code}'
    yield 'tries_to_the_end', put(good, code + 6, 65535, 2), f'outside at {code}'
    handlers = tries + 8 * u2(good, code + 6)
    yield 'handler_of_no_type', put(good, handlers + 2, 0x7F, 1), f'index in handlers row {code}'


for name, data, said in files():
    path = f'hostile_{name}.dex'
    open(f'{folder}/{path}', 'wb').write(data)
    print(f'{path}: {said}')
