"""Compares the decoded instructions of DEX files with what `dexdump -d` prints of them, instruction by instruction.

usage: compare.py OURS TABLE FILE..

OURS is the output of a program that prints each line as `PC OPCODE vN.. #LITERAL @INDEX >TARGET`, and TABLE is the one table of
opcodes, of which the mnemonics and the formats are taken. Ends with status 1 where something differs.
"""
import re
import subprocess
import sys

LITERAL_BITS = {'F11n': 4, 'F22b': 8, 'F21s': 16, 'F22s': 16, 'F21h': 16, 'F31i': 32, 'F51l': 64}
INDEXED = ('F21c', 'F22c', 'F31c', 'F35c', 'F3rc')
BRANCHES = ('F10t', 'F20t', 'F30t', 'F21t', 'F22t', 'F31t')
PAYLOADS = ('packed-switch-data', 'sparse-switch-data', 'array-data')
PRINTED = re.compile(r'[0-9a-f]{6,}: ([0-9a-f ]*?)(?: \.\.\.)?\s*\|(?:\[|([0-9a-f]{4,}): )(.*)$')


def signed(n, bits):
    n &= (1 << bits) - 1
    return n - (1 << bits) if n >> (bits - 1) else n


def table_of(path):
    rows = re.findall(r'\((\w+)(?:\(\w+\))?, \w+, \w+\), // [0-9A-Fa-f]{2} (\S+)', open(path).read())
    return {name: form for form, name in rows if form != 'Unused'}


def registers_of(form, operands):
    if operands.startswith('{'):
        return re.findall(r'\bv(\d+)', operands[:operands.index('}')])
    count = {'F21c': 1, 'F31c': 1, 'F22c': 2}.get(form)
    return re.findall(r'\bv(\d+)', operands)[:count]


def index_of(line, form, units):
    told = re.search(r'(?:string|type|field|method)@([0-9a-f]+)$', line)
    if told:
        return int(told.group(1), 16)
    # dexdump broke the line within a string: the index as the bytes have it
    return int.from_bytes(bytes.fromhex(units.replace(' ', ''))[2:6 if form == 'F31c' else 4], 'little')


def literal_of(form, operands, note):
    if form == 'F11n':
        return int(re.search(r'#int (-?\d+)', operands).group(1))
    return signed(int(re.search(r'#([0-9a-f]+)$', note).group(1), 16), LITERAL_BITS[form])


def target_of(form, pc, operands):
    number = int(operands.split(',')[-1].strip().lstrip('#'), 16)
    # of goto/32 dexdump prints the distance
    return pc + signed(number, 32) if form == 'F30t' else number


def described(line, units, pc, text, table):
    name = text.split(' ')[0]
    if name in PAYLOADS:
        return '%04x %s' % (pc, name)
    body, _, note = text.partition(' // ')
    operands = body.partition(' ')[2]
    form = table[name]
    parts = ['%04x %s' % (pc, units[:2])]
    if name != 'nop':
        parts += ['v' + r for r in registers_of(form, operands)]
    if form in INDEXED:
        parts.append('@%d' % index_of(line, form, units))
    elif form in BRANCHES:
        parts.append('>%d' % target_of(form, pc, operands))
    elif form in LITERAL_BITS:
        parts.append('#%d' % literal_of(form, operands, note))
    return ' '.join(parts)


def expected(path, table):
    methods = []
    for line in subprocess.check_output(['dexdump', '-d', path], text=True, errors='replace').splitlines():
        printed = PRINTED.match(line)
        if printed and printed.group(2) is None:
            methods.append([])
        elif printed:
            units, pc, text = printed.groups()
            methods[-1].append(described(line, units, int(pc, 16), text, table))
    return methods


def decoded(path):
    files, methods = {}, None
    for line in open(path):
        line = line.rstrip('\n')
        if line.startswith('file '):
            methods = files.setdefault(line[5:], [])
        elif line == 'method':
            methods.append([])
        elif methods and re.match(r'[0-9a-f]{4,} |fault', line):
            methods[-1].append(line)
    return files


def main():
    ours, table = decoded(sys.argv[1]), table_of(sys.argv[2])
    differences, lines, seen = 0, 0, set()
    for path in sys.argv[3:]:
        wanted, given = expected(path, table), ours.get(path, [])
        if [len(m) for m in wanted] != [len(m) for m in given]:
            print(path, 'has other numbers of methods or lines')
            differences += 1
        for theirs, mine in zip(wanted, given):
            lines += len(theirs)
            seen |= {line.split()[1] for line in theirs}
            for a, b in zip(theirs, mine):
                if a != b:
                    print(path, 'dexdump:', a, 'decoded:', b)
                    differences += 1
    print('files %d, lines %d, opcodes and payloads %d, differences %d' % (len(sys.argv) - 3, lines, len(seen), differences))
    sys.exit(differences != 0)


if __name__ == '__main__':
    main()
