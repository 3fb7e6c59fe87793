#!/usr/bin/env python3
"""Writes a DEX file in which many classes share one class data item: many_fields.py TARGET PREFIX CLASSES FIELDS. Class i is
named LPREFIXi; and has so many int fields. Checksum, signature and map are left out."""
import struct
import sys

target, prefix, classes, fields = sys.argv[1], sys.argv[2], int(sys.argv[3]), int(sys.argv[4])


def leb(n):
    out = bytearray()
    while n > 0x7F:
        out.append(n & 0x7F | 0x80)
        n >>= 7
    return bytes(out) + bytes([n])


names = ["I", "Ljava/lang/Object;"] + [f"L{prefix}{i};" for i in range(classes)]
texts = names + [f"f{i}" for i in range(fields)]
string_ids = 112
type_ids = string_ids + 4 * len(texts)
field_ids = type_ids + 4 * len(names)
class_defs = field_ids + 8 * fields
data = class_defs + 32 * classes

body = bytearray()
offsets = []
for text in texts:
    offsets.append(data + len(body))
    body += leb(len(text)) + text.encode() + b"\0"
class_data = data + len(body)
body += leb(0) + leb(fields) + leb(0) + leb(0)
for i in range(fields):
    body += leb(min(i, 1)) + leb(2)

tables = b"".join(struct.pack("<I", offset) for offset in offsets)
tables += b"".join(struct.pack("<I", i) for i in range(len(names)))
tables += b"".join(struct.pack("<HHI", 2, 0, len(names) + i) for i in range(fields))
for i in range(classes):
    tables += struct.pack("<8I", 2 + i, 1, 1, 0, 0xFFFFFFFF, 0, class_data, 0)
size = data + len(body)
header = b"dex\n035\0" + bytes(24) + struct.pack("<5I", size, 112, 0x12345678, 0, 0) + struct.pack("<I", 0)
for count, offset in [(len(texts), string_ids), (len(names), type_ids), (0, 0), (fields, field_ids), (0, 0), (classes, class_defs), (len(body), data)]:
    header += struct.pack("<2I", count, offset if count else 0)
assert len(header) == 112
open(target, "wb").write(header + tables + body)
