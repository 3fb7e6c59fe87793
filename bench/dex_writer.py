"""Writes DEX files of any size, for the scripts that measure: only what a reader looks at, in the layout of the Android documentation."""
import struct

NATIVE, STATIC, PRIVATE, PUBLIC = 0x100, 0x8, 0x2, 0x1
NOP, RETURN_VOID = 0x0000, 0x000E


def leb(n):
    out = bytearray()
    while n > 0x7F:
        out.append(n & 0x7F | 0x80)
        n >>= 7
    out.append(n)
    return bytes(out)


def signed_leb(n):
    out = bytearray()
    while not -64 <= n <= 63:
        out.append(n & 0x7F | 0x80)
        n >>= 7
    out.append(n & 0x7F)
    return bytes(out)


class Table(dict):
    """Numbers keys in the order in which they come."""

    def row(self, key):
        return self.setdefault(key, len(self))


def code_item(registers, ins, units, tries=(), handlers=()):
    """A code item. A try is (start, count), and all of them name one list of handlers: addresses, caught by the type 0."""
    data = struct.pack('<4H2I', registers, ins, 255, len(tries), 0, len(units) // 2) + units
    if tries:
        data += bytes(len(data) % 4)
        data += b''.join(struct.pack('<I2H', start, count, 1) for start, count in tries)
        data += leb(1) + signed_leb(len(handlers)) + b''.join(leb(0) + leb(at) for at in handlers)
    return data


class DexFile:
    def __init__(self):
        self.strings, self.types, self.protos = Table(), Table(), Table()
        self.fields, self.methods, self.classes = Table(), Table(), []

    def type(self, name):
        return self.types.row(self.strings.row(name))

    def proto(self, ret, params=()):
        return self.protos.row((self.strings.row('V'), self.type(ret), tuple(self.type(p) for p in params)))

    def field(self, of, name, kind='I'):
        return self.fields.row((self.type(of), self.type(kind), self.strings.row(name)))

    def method(self, of, name, ret='V', params=()):
        return self.methods.row((self.type(of), self.proto(ret, params), self.strings.row(name)))

    def add_class(self, name, above='Ljava/lang/Object;', interfaces=(), statics=(), instances=(), methods=()):
        """`statics` and `instances` are rows of fields, ascending; a method is (row, flags, code item or None), ascending."""
        kinds = [self.type(i) for i in interfaces]
        self.classes.append((self.type(name), self.type(above), kinds, statics, instances, methods))

    def bytes(self):
        rows = [len(self.strings), len(self.types), len(self.protos), len(self.fields), len(self.methods), len(self.classes)]
        offsets, at = [], 112
        for count, width in zip(rows, [4, 4, 12, 8, 8, 32]):
            offsets.append(at)
            at += count * width
        data = bytearray()

        def put(item):
            data.extend(bytes(-(at + len(data)) % 4))
            here = at + len(data)
            data.extend(item)
            return here

        def put_list(kinds):
            return put(struct.pack('<I', len(kinds)) + struct.pack(f'<{len(kinds)}H', *kinds)) if kinds else 0

        tables = bytearray()
        for text in self.strings:
            raw = text.encode()
            tables += struct.pack('<I', put(leb(len(raw)) + raw + b'\0'))
        tables += struct.pack(f'<{len(self.types)}I', *self.types)
        for shorty, ret, params in self.protos:
            tables += struct.pack('<3I', shorty, ret, put_list(params))
        for of, kind, name in self.fields:
            tables += struct.pack('<2HI', of, kind, name)
        for of, proto, name in self.methods:
            tables += struct.pack('<2HI', of, proto, name)
        for name, above, kinds, statics, instances, methods in self.classes:
            inside = 0
            if statics or instances or methods:
                codes = [put(code) if code else 0 for _, _, code in methods]
                item = leb(len(statics)) + leb(len(instances)) + leb(len(methods)) + leb(0)
                for members in [statics, instances]:
                    for before, row in zip([0, *members], members):
                        item += leb(row - before) + leb(PUBLIC)
                item = bytearray(item)
                before = 0
                for (row, flags, _), code in zip(methods, codes):
                    item += leb(row - before) + leb(flags) + leb(code)
                    before = row
                inside = put(item)
            tables += struct.pack('<8I', name, PUBLIC, above, put_list(kinds), 0xFFFFFFFF, 0, inside, 0)
        head = b'dex\n035\0' + bytes(24) + struct.pack('<3I', at + len(data), 112, 0x12345678) + bytes(12)
        for count, offset in zip(rows, offsets):
            head += struct.pack('<2I', count, offset)
        return head + bytes(112 - len(head)) + bytes(tables) + bytes(data)
