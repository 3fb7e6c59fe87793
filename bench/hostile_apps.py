"""Makes apps that a stranger may hand in to hold the desk or to take its memory, and shows time and peak memory of `check` on each,
and on one of twice the size.

usage: hostile_apps.py VET FOLDER [CASE..] (the program that `./vet --prove` built, a folder to work in, and which cases: all
where none is named)

Each run may take 120 seconds of processor time and 6 GB of memory. Prints for each the size of its DEX file, seconds, MB, the
ratios to the size before, and the first line that the program printed, or how it ended.
"""
import multiprocessing
import os
import re
import resource
import shutil
import struct
import subprocess
import sys

from dex_writer import NATIVE, NOP, PRIVATE, PUBLIC, RETURN_VOID, STATIC, DexFile, code_item

SECONDS, BYTES = 120, 6 << 30
MAIN, BUNDLE = 'La/Main;', 'Landroid/os/Bundle;'
here = os.path.dirname(os.path.abspath(__file__))


def unit(*units):
    return struct.pack(f'<{len(units)}H', *units)


def with_main(dex, code, reached=False):
    """The activity with a method of that code: a static one that nobody calls, or else the one by which the activity begins."""
    if reached:
        method = (dex.method(MAIN, 'onCreate', 'V', [BUNDLE]), PUBLIC, code)
    else:
        method = (dex.method(MAIN, 'code'), PUBLIC | STATIC, code)
    dex.add_class(MAIN, 'Landroid/app/Activity;', methods=[method])
    return dex


def chain(dex, count, interfaces=lambda i: (), first='Ljava/lang/Object;', statics=lambda i: ()):
    """Classes each below the one before."""
    above = first
    for i in range(count):
        dex.add_class(f'Lc{i};', above, interfaces(i), statics(i))
        above = f'Lc{i};'
    return above


def gets(is_static, count, fields):
    """So many gets of these fields in turn."""
    units = b''.join(unit(0x0060 if is_static else 0x0052, fields[i % len(fields)]) for i in range(count))
    return code_item(2, 0, unit(0x0012) + units + unit(RETURN_VOID))


def missing(is_static):
    def make(n):
        dex = DexFile()
        last = chain(dex, n)
        return with_main(dex, gets(is_static, 5 * n, [dex.field(last, 'f')]))
    return make


def far_above(n):
    """As many static fields as classes, all in the topmost class, and each named in the lowest."""
    dex = DexFile()
    rows = [dex.field('Lc0;', f'f{i}') for i in range(n)]
    last = chain(dex, n, statics=lambda i: rows if i == 0 else ())
    return with_main(dex, gets(True, n, [dex.field(last, f'f{i}') for i in range(n)]))


def circle(n):
    """The chain ends in a circle of ten classes, which come last by name."""
    dex = DexFile()
    for i in range(10):
        dex.add_class(f'Lz{i};', f'Lz{(i + 1) % 10};')
    chain(dex, n - 10, first='Lz0;')
    return dex


def ring(n):
    """All classes in one circle."""
    dex = DexFile()
    chain(dex, n, first=f'Lc{n - 1};')
    return dex


LONG = 'L' + 'n' * 1_000_000 + ';'


def long_interface(n):
    dex = DexFile()
    dex.add_class('La;', interfaces=[LONG] * n)
    return dex


def long_class(n):
    dex = DexFile()
    dex.add_class(LONG, methods=[(dex.method(LONG, f'm{i}'), NATIVE, None) for i in range(n)])
    return dex


def long_parameter(n):
    dex = DexFile()
    dex.add_class('La;', methods=[(dex.method('La;', f'm{i}', 'V', [LONG]), NATIVE, None) for i in range(n)])
    return dex


def many_arguments(n):
    dex = DexFile()
    at = dex.method('Llib;', 'call', 'V', ['I'] * 250)
    return with_main(dex, code_item(250, 0, unit(0x0077 | 250 << 8, at, 0) * n + unit(RETURN_VOID)))


def switches(n, distances, tail, reached=False):
    """Switches by one table, and behind them so many `nop`s."""
    end = 3 * n + tail + 1
    units = b''.join(struct.pack('<Hi', 0x002B, end - 3 * i) for i in range(n)) + unit(NOP) * tail + unit(RETURN_VOID)
    units += struct.pack(f'<2Hi{len(distances)}i', 0x0100, len(distances), 0, *distances)
    return with_main(DexFile(), code_item(1, 0, units) if not reached else code_item(2, 2, units), reached)


def handled(n, reached=False, handlers=None):
    """So many lines of two units under one try, with almost as many handlers as lines or with so many."""
    dex = DexFile()
    dex.type('Ljava/lang/Exception;')
    addresses = [2 * i for i in range(n * 12 // 13 if handlers is None else handlers)]
    units = unit(0x0090, 0) * n + unit(RETURN_VOID)
    return with_main(dex, code_item(2, 2 if reached else 0, units, [(0, min(2 * n, 65535))], addresses), reached)


def own_interfaces(n):
    dex = DexFile()
    for i in range(n):
        dex.type(f'Li{i};')
    chain(dex, n, lambda i: [f'Li{i};'])
    return dex


def listed(classes, rows, chained):
    """Lists of so many classes, in chains of so many, and a callback row on every so many of them."""
    text = ['rows = 4000000\ncategories = ["device_id"]\n']
    for name in ['Ljava/lang/Object;', 'Landroid/app/Activity;', 'Llib;']:
        text.append(f'[[class]]\nname = "{name}"\ndefault = "blank"\n')
    for i in range(classes):
        parents = f'parents = ["Lx{i - 1};"]\n' if i % chained else ''
        text.append(f'[[class]]\nname = "Lx{i};"\n{parents}default = "blank"\n')
    for i in range(rows):
        text.append(f'[[callback]]\nclass = "Lx{i * (classes // rows)};"\nname = "m{i}"\nproto = "()V"\n')
    return '\n'.join(text)


def listened(n, chained=60, is_chain=False):
    """Classes each of which, or of which the first, implements a listed class, with the body of a callback; all are handed to the
    library."""
    dex = DexFile()
    dex.lists = listed(16_000, 4_000, chained)
    take = dex.method('Llib;', 'take', 'V', ['Ljava/lang/Object;'])
    units, above = [], 'Ljava/lang/Object;'
    for i in range(n):
        name, row = f'Lc{i};', i % 4_000
        body = (dex.method(name, f'm{row}'), PUBLIC, code_item(1, 1, unit(RETURN_VOID)))
        interfaces = [] if is_chain and i else [f'Lx{4 * row + 3};']
        dex.add_class(name, above, interfaces, methods=[body])
        units.append(unit(0x0022, dex.type(name)) + unit(0x1071, take, 0))
        above = name if is_chain else above
    return with_main(dex, code_item(3, 2, b''.join(units) + unit(RETURN_VOID)), True)


def strict(dex):
    """The app under strict lists: the sample's, with a line in front."""
    with open(f'{here}/../examples/lists.toml') as lists:
        dex.lists = f'strict = true\nplatform = ["Ljava/", "Landroid/"]\n{lists.read()}'
    return dex


def hidden_chain(n):
    """Classes in one chain, each with a method of one name, private in every other one."""
    dex, above = DexFile(), 'Ljava/lang/Object;'
    for i in range(n):
        name = f'Lp{i % 7}/c{i};'
        method = (dex.method(name, 'm'), [PUBLIC, PRIVATE][i % 2], code_item(1, 1, unit(RETURN_VOID)))
        dex.add_class(name, above, methods=[method])
        above = name
    return strict(dex)


def hidden_wide(n):
    """Two classes, one below the other, with as many methods of the same names, and all of the lower one private."""
    dex, above = DexFile(), 'Ljava/lang/Object;'
    for name, flags in (('La;', PUBLIC), ('Lb;', PRIVATE)):
        methods = [(dex.method(name, f'm{i}'), flags, code_item(1, 1, unit(RETURN_VOID))) for i in range(n)]
        dex.add_class(name, above, methods=methods)
        above = name
    return strict(dex)


def hidden_comb(n):
    """A chain of classes with as many leaves, one below each, and in all of them a method of one name."""
    dex, above = DexFile(), 'Ljava/lang/Object;'
    for i in range(n):
        for name, flags in ((f'Lp{i % 7}/c{i};', PUBLIC), (f'Lq/d{i};', PRIVATE)):
            dex.add_class(name, above, methods=[(dex.method(name, 'm'), flags, code_item(1, 1, unit(RETURN_VOID)))])
            above = f'Lp{i % 7}/c{i};'
    return strict(dex)


def hidden_star(n):
    """One class with many methods above as many classes, each of which hides one of them."""
    dex, hub = DexFile(), 'La;'
    methods = [(dex.method(hub, f'm{i}'), PUBLIC, code_item(1, 1, unit(RETURN_VOID))) for i in range(n)]
    dex.add_class(hub, methods=methods)
    for i in range(n):
        name = f'Lb{i};'
        dex.add_class(name, hub, methods=[(dex.method(name, f'm{i}'), PRIVATE, code_item(1, 1, unit(RETURN_VOID)))])
    return strict(dex)


def unlisted(n):
    """Classes each with an interface of its own, which the lists don't have."""
    dex = DexFile()
    for i in range(n):
        dex.add_class(f'Lc{i};', interfaces=[f'Lu{i};'])
    return strict(dex)


def library_statics(n):
    """As many gets as static fields of a class that the lists don't have."""
    dex = DexFile()
    return strict(with_main(dex, gets(True, n, [dex.field('Llib/S;', f'f{i}', 'Lx;') for i in range(n)])))


def by_cells(dex, rows):
    """The app under the sample's lists with so many rows, which ask for the second analysis."""
    with open(f'{here}/../examples/lists.toml') as lists:
        dex.lists = re.sub(r'(?m)^rows = .*', f'rows = {rows}\nlarge = "cells"', lists.read())
    return dex


OBJECT = 'Ljava/lang/Object;'
NEW, TO_STATIC, FROM_STATIC, TO_FIELD, FROM_FIELD, MOVE = 0x22, 0x69, 0x62, 0x5B, 0x54, 0x09
IF_ZERO, GOTO = 0x38, 0x2A


def made_and_kept(dex, register, static):
    """An object is made, and goes from that register into the static field."""
    return unit(NEW | register << 8, dex.type('La/Held;'), TO_STATIC | register << 8, dex.field('La/Held;', static, OBJECT))


def readers_of_one(n):
    """A register that is read at so many places, which all follow one write of it."""
    dex = DexFile()
    reads = unit(TO_STATIC, dex.field('La/Held;', 's', OBJECT)) * n
    units = unit(NEW, dex.type('La/Held;')) + reads + unit(RETURN_VOID)
    return by_cells(with_main(dex, code_item(3, 2, units), True), 100)


def readers_of_each(n):
    """So many writes of a register, and behind each of them the same places, as many, at which it is read."""
    dex = DexFile()
    reads = unit(TO_STATIC, dex.field('La/Held;', 's', OBJECT)) * n
    writes = b''.join(unit(IF_ZERO | 1 << 8, 7, NEW, dex.type('La/Held;')) + struct.pack('<Hi', GOTO, 7 * (n - i) - 4)
                      for i in range(n))
    return by_cells(with_main(dex, code_item(4, 2, writes + reads + unit(RETURN_VOID)), True), 100_000)


def readers_far_away(n):
    """So many registers, all written before all are read."""
    dex = DexFile()
    units = unit(NEW, dex.type('La/Held;')) + b''.join(unit(MOVE, 2 + i, 0) for i in range(n))
    units += b''.join(unit(MOVE, 1, 2 + i) for i in range(n)) + unit(RETURN_VOID)
    return by_cells(with_main(dex, code_item(n + 4, 2, units), True), 100_000)


def readers_of_gets(n):
    """So many objects that each hold as many others, which a get brings to as many places."""
    dex = DexFile()
    dex.add_class('La/Held;')
    field = dex.field('La/Held;', 'f', OBJECT)
    units = b''.join(made_and_kept(dex, 0, 'a') + made_and_kept(dex, 0, 'b') for _ in range(n))
    units += unit(FROM_STATIC | 1 << 8, dex.field('La/Held;', 'a', OBJECT))
    units += unit(FROM_STATIC | 2 << 8, dex.field('La/Held;', 'b', OBJECT))
    units += unit(TO_FIELD | 2 << 8 | 1 << 12, field, FROM_FIELD | 3 << 8 | 1 << 12, field)
    units += unit(TO_STATIC | 3 << 8, dex.field('La/Held;', 'c', OBJECT)) * n + unit(RETURN_VOID)
    return by_cells(with_main(dex, code_item(6, 2, units), True), 16 * n * n // 5)


CASES = {
    'readers_of_one': (30_000, readers_of_one),
    'readers_of_each': (4_000, readers_of_each),
    'readers_far_away': (4_000, readers_far_away),
    'readers_of_gets': (200, readers_of_gets),
    'sget_missing': (20_000, missing(True)),
    'iget_missing': (20_000, missing(False)),
    'sget_far_above': (15_000, far_above),
    'circle_above': (30_000, circle),
    'circle_of_all': (30_000, ring),
    'long_interface': (400_000, long_interface),
    'long_class': (60_000, long_class),
    'long_parameter': (60_000, long_parameter),
    'many_arguments': (400_000, many_arguments),
    'switches_equal': (45_000, lambda n: switches(n, [3] * 32_000, 0)),
    'switches_equal_reached': (45_000, lambda n: switches(n, [3] * 32_000, 0, True)),
    'switches_distinct': (45_000, lambda n: switches(n, range(3, 32_001 * 3, 3), 96_100)),
    'handlers': (32_500, handled),
    'handlers_reached': (32_500, lambda n: handled(n, True)),
    'handlers_allowed': (16_000, lambda n: handled(n, True, 32)),
    'own_interfaces': (20_000, own_interfaces),
    'listened': (30_000, listened),
    'listened_chain': (20_000, lambda n: listened(n, is_chain=True)),
    'hidden_chain': (30_000, hidden_chain),
    'hidden_wide': (30_000, hidden_wide),
    'hidden_comb': (10_000, hidden_comb),
    'hidden_star': (10_000, hidden_star),
    'unlisted': (15_000, unlisted),
    'library_statics': (30_000, library_statics),
}


def folder_of(folder, title, dex):
    path = f'{folder}/{title}'
    shutil.rmtree(path, ignore_errors=True)
    os.makedirs(path)
    text = dex.bytes()
    with open(f'{path}/classes.dex', 'wb') as out:
        out.write(text)
    with open(f'{path}/manifest.toml', 'w') as out:
        out.write('package = "a"\ndex_files = 1\n')
        if any(dex.types.get(dex.strings.get(MAIN)) == row[0] for row in dex.classes):
            out.write(f'[[component]]\nkind = "activity"\nclass = "{MAIN}"\n')
    for name in ['layouts.toml', 'declaration.toml']:
        open(f'{path}/{name}', 'w').close()
    with open(f'{here}/../examples/lists.toml') as lists, open(f'{path}/lists.toml', 'w') as out:
        out.write(getattr(dex, 'lists', None) or lists.read())
    return path, len(text)


def limits():
    resource.setrlimit(resource.RLIMIT_CPU, (SECONDS, SECONDS))
    resource.setrlimit(resource.RLIMIT_AS, (BYTES, BYTES))
    resource.setrlimit(resource.RLIMIT_CORE, (0, 0))


def run(program, path):
    """Seconds of processor time, bytes at the peak, and what was said."""
    child = subprocess.Popen([program, 'check', path, '1'], stdout=subprocess.PIPE, stderr=subprocess.DEVNULL, preexec_fn=limits)
    said = child.stdout.read()
    _, status, used = os.wait4(child.pid, 0)
    lines = said.decode(errors='replace').splitlines()
    ended = f'signal {os.WTERMSIG(status)}' if os.WIFSIGNALED(status) else f'status {os.WEXITSTATUS(status)}'
    return used.ru_utime + used.ru_stime, used.ru_maxrss * 1024, f'{ended} {lines[0][:60] if lines else ""}'


def made(folder, name, n):
    """Makes the app in a process of its own: a program's peak counts what the process held that starts it."""
    with multiprocessing.get_context('fork').Pool(1) as pool:
        return pool.apply(make_app, (folder, name, n))


def make_app(folder, name, n):
    return folder_of(folder, f'{name}_{n}', CASES[name][1](n))


def measure(program, folder, names):
    for name in names or CASES:
        size = CASES[name][0]
        before = None
        for n in [size, 2 * size]:
            path, length = made(folder, name, n)
            seconds, memory, said = run(program, path)
            ratio = '' if before is None else f' (x{seconds / before[0]:.1f}, x{memory / before[1]:.1f})'
            before = seconds, memory
            print(f'{name} {n}, {length} bytes: {seconds:.1f} s, {memory / 1e6:.0f} MB{ratio}  {said}', flush=True)
            shutil.rmtree(path)


measure(sys.argv[1], sys.argv[2], sys.argv[3:])
