"""Writes a smali class with three methods, each with every instruction of the table but `goto` in a random order, and assembles it.

usage: every_opcode.py TABLE SEED FOLDER    TABLE is dalvik_formats' opcodes.rt; FOLDER gets SEED.smali and SEED.dex
"""
import random, re, subprocess, sys

REGISTERS = 700
TYPES = ['Ljava/lang/Object;', '[I', 'Lgen/A;', '[[J', 'Ljava/util/List;']
FIELDS = ['Lgen/A;->f:I', 'Lgen/B;->g:Ljava/lang/String;', 'Lgen/C;->h:J']
METHODS = ['Lgen/A;->m()V', 'Lgen/B;->n(IJ)I', 'Ljava/lang/Object;-><init>()V', 'Lgen/C;->o(DLjava/lang/String;)V']
STRINGS = ['"one"', '"two"', '"three words"', '"four"']
POOLS = {'Types': TYPES, 'Fields': FIELDS, 'Methods': METHODS, 'Strings': STRINGS}


def rows(table):
    found = re.findall(r'\((\w+)(?:\((\w+)\))?, \w+, (\w+)\), // [0-9A-Fa-f]{2} (\S+)', open(table).read())
    return [(name, form, pool, kind) for form, pool, kind, name in found if form not in ('Unused', 'F10t')]


def payload(kind, number, label):
    if kind == 'FillArrayData':
        numbers = [str(random.randrange(100)) for _ in range(random.randrange(7))]
        return [':p%d' % number, '.array-data %d' % random.choice([1, 2, 4])] + numbers + ['.end array-data']
    if kind == 'PackedSwitch':
        targets = [label() for _ in range(random.randrange(1, 6))]
        return [':p%d' % number, '.packed-switch %d' % random.randint(-9, 9)] + targets + ['.end packed-switch']
    targets = ['%d -> %s' % (3 * j - 4, label()) for j in range(random.randrange(1, 6))]
    return [':p%d' % number, '.sparse-switch'] + targets + ['.end sparse-switch']


def operands(name, form, pool, number, label):
    low = lambda: 'v%d' % random.randrange(15)
    byte = lambda: 'v%d' % random.randrange(255)
    any_one = lambda: 'v%d' % random.randrange(REGISTERS - 2)
    signed = lambda bits: str(random.randint(-(1 << bits - 1), (1 << bits - 1) - 1))
    index = lambda: random.choice(POOLS[pool or 'Strings'])
    if form == 'F21h':
        wide = 'wide' in name
        return [byte(), hex(random.randrange(0x8000) << (48 if wide else 16)) + ('L' if wide else '')]
    if form == 'F35c':
        return ['{%s}' % ', '.join(low() for _ in range(random.randrange(6))), index()]
    if form == 'F3rc':
        first = random.randrange(REGISTERS - 300)
        return ['{v%d .. v%d}' % (first, first + random.randrange(1, 250)), index()]
    return {
        'F10x': lambda: [], 'F12x': lambda: [low(), low()], 'F11n': lambda: [low(), signed(4)], 'F11x': lambda: [byte()],
        'F20t': lambda: [label()], 'F30t': lambda: [label()], 'F22x': lambda: [byte(), any_one()],
        'F32x': lambda: [any_one(), any_one()], 'F21t': lambda: [byte(), label()], 'F22t': lambda: [low(), low(), label()],
        'F21s': lambda: [byte(), signed(16)], 'F21c': lambda: [byte(), index()], 'F31c': lambda: [byte(), index()],
        'F23x': lambda: [byte(), byte(), byte()], 'F22b': lambda: [byte(), byte(), signed(8)],
        'F22s': lambda: [low(), low(), signed(16)], 'F22c': lambda: [low(), low(), index()],
        'F31i': lambda: [byte(), signed(32)], 'F51l': lambda: [byte(), signed(64) + 'L'],
        'F31t': lambda: [byte(), ':p%d' % number],
    }[form]()


def method(body, number):
    random.shuffle(body)
    label = lambda: ':l%d' % random.randrange(len(body))
    lines, payloads = ['.method public static m%d()V' % number, '.registers %d' % REGISTERS], []
    for k, (name, form, pool, kind) in enumerate(body):
        lines += [':l%d' % k, '%s %s' % (name, ', '.join(operands(name, form, pool, k, label)))]
        if form == 'F31t':
            payloads += payload(kind, k, label)
    return lines + ['goto :e', ':e', 'return-void'] + payloads + ['.end method']


def main():
    table, seed, folder = sys.argv[1:]
    random.seed(int(seed))
    lines = ['.class public Lgen/A%s;' % seed, '.super Ljava/lang/Object;']
    for number in range(3):
        lines += method(rows(table), number)
    path = '%s/%s' % (folder, seed)
    with open(path + '.smali', 'w') as out:
        out.write('\n'.join(lines) + '\n')
    subprocess.check_call(['smali', 'a', '--api', '20', path + '.smali', '-o', path + '.dex'])


main()
