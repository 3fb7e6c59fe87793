"""Writes what `dex_list list` must print for DEX files, from what Debian's dexdump and baksmali print of them.

usage: expected_listing.py FILE.. (the paths as dex_list is given them)
"""
import re
import subprocess
import sys


def mutf8(text):
    out = bytearray()
    for unit in memoryview(text.encode('utf-16-le', 'surrogatepass')).cast('H'):
        if 0 < unit < 0x80:
            out.append(unit)
        elif unit < 0x800:
            out += bytes([0xC0 | unit >> 6, 0x80 | unit & 0x3F])
        else:
            out += bytes([0xE0 | unit >> 12, 0x80 | unit >> 6 & 0x3F, 0x80 | unit & 0x3F])
    return bytes(out)


def shown(text):
    return ''.join(chr(b) if 0x20 <= b < 0x7F and b != 0x5C else '\\%02x' % b for b in mutf8(text))


def unescaped(text):
    simple = {'n': '\n', 't': '\t', 'r': '\r', '"': '"', "'": "'", '\\': '\\'}
    return re.sub(r'\\(u[0-9a-fA-F]{4}|.)', lambda m: chr(int(m[1][1:], 16)) if m[1][0] == 'u' else simple[m[1]], text)


def run(*words):
    return subprocess.run(words, capture_output=True, check=True).stdout.decode('utf-8', 'surrogateescape')


def units_of(name, offset, count):
    data = open(name, 'rb').read()
    return [int.from_bytes(data[offset + 2 * i:offset + 2 * i + 2], 'little') for i in range(count)]


def listing(name):
    dump = run('dexdump', '-f', '-d', name)
    sizes = {m[1]: int(m[2]) for m in re.finditer(r'^(\w+)_ids_size\s*: (\d+)', dump, re.M)}
    sizes['class'] = int(re.search(r'^class_defs_size\s*: (\d+)', dump, re.M)[1])
    print(f"{name}: strings {sizes['string']} types {sizes['type']} protos {sizes['proto']} "
          f"fields {sizes['field']} methods {sizes['method']} classes {sizes['class']}")
    for line in run('baksmali', 'list', 'strings', name).splitlines():
        print('string ' + shown(unescaped(line[1:-1])))
    kind = member = None
    code = {}
    for line in dump.splitlines():
        if m := re.match(r"  Class descriptor  : '(.*)'", line):
            code = {'class': m[1]}
        elif m := re.match(r'  Access flags +: (0x\w+)', line):
            code['flags'] = int(m[1], 16)
        elif m := re.match(r"  Superclass +: '(.*)'", line):
            print(f"class {shown(code['class'])} {code['flags']:#06x} extends {shown(m[1])}")
        elif m := re.match(r"    #\d+ +: '(.*)'", line):
            print(f'  implements {shown(m[1])}')
        elif m := re.match(r'  (Static|Instance) fields|  (Direct|Virtual) methods', line):
            kind = (m[1] or m[2]).lower()
        elif m := re.match(r"      name +: '(.*)'", line):
            member = m[1]
        elif m := re.match(r"      type +: '(.*)'", line):
            described = m[1]
        elif m := re.match(r'      access +: (0x\w+)', line):
            print(f'  {kind} {shown(member)} {shown(described)} {int(m[1], 16):#06x}')
        elif m := re.match(r'      (registers|ins|outs) +: (\d+)', line):
            code[m[1]] = m[2]
        elif m := re.match(r'      insns size +: (\d+)', line):
            count = int(m[1])
            print(f"    registers {code['registers']} ins {code['ins']} outs {code['outs']} units {count}")
            code['header'] = count
        elif 'header' in code and (m := re.match(r'([0-9a-f]{6}): +\|\[', line)):
            print(''.join(' %04x' % unit for unit in units_of(name, int(m[1], 16) + 16, code.pop('header'))))
        elif m := re.match(r'        (0x\w+) - (0x\w+)$', line):
            print(f'    try {m[1]} {int(m[2], 16) - int(m[1], 16)}')
        elif m := re.match(r'          (\S+) -> (0x\w+)', line):
            print(f"      {'any' if m[1] == '<any>' else shown(m[1])} {m[2]}")


for name in sys.argv[1:]:
    listing(name)
