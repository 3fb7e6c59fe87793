"""Compares generated apps with those that Debian's smali assembles of sources that are made here by the rules of docs/FORMATS.md.

usage: made_listings.py PROGRAM FOLDER (the program `made_list`, and a folder to work in)
       made_listings.py SEED SIZE (prints the listing of an app, as `made_list` lists one)

For several seeds and sizes it lets the program write the app's DEX file, and compares what Debian's dexdump prints of it with
what dexdump prints of the assembled app. Prints a line each. The printed listing is that of the assembled app.
"""
import os
import re
import subprocess
import sys
import tempfile

OBJECT, WORK = 'Ljava/lang/Object;', 'Lgen/Work;'
UNARY = f'({OBJECT}){OBJECT}'


def instruction(opcode, words):
    """A line of code: the opcode, the registers, a literal other than 0, and what the index names."""
    parts = [part for part in re.sub('[{}]', '', words).split(', ') if part not in ('', '#int 0')]
    return '    ' + ' '.join([opcode, *parts]).replace('#int ', '#')


def dumped(name):
    """The listing of a DEX file, from what dexdump prints of it."""
    dump = subprocess.run(['dexdump', '-j', '-d', name], capture_output=True, check=True, text=True).stdout
    lines, head, member, kind, interfaces = [], {}, {}, None, 0
    for line in dump.splitlines():
        if m := re.match(r"  Class descriptor  : '(.*)'", line):
            head, interfaces = {'name': m[1]}, 0
        elif m := re.match(r'  Access flags +: (0x\w+)', line):
            head['flags'] = m[1]
        elif m := re.match(r"  Superclass +: '(.*)'", line):
            head['above'] = m[1]
        elif re.match(r"    #\d+ +: '", line):
            interfaces += 1
        elif m := re.match(r'  (Static|Instance) fields|  (Direct|Virtual) methods', line):
            if m[1] == 'Static':
                lines.append(f"class {head['flags']} {head['name']} extends {head['above']} interfaces {interfaces}")
            kind = 'field' if m[1] else 'method'
        elif m := re.match(r"      (name|type) +: '(.*)'", line):
            member[m[1]] = m[2]
        elif m := re.match(r'      access +: (0x\w+)', line):
            lines.append(f"  {kind} {m[1]} {member['name']}:{member['type']}")
        elif m := re.match(r'      (registers|ins) +: (\d+)', line):
            member[m[1]] = m[2]
        elif m := re.match(r'\w{6}: (\w\w).*\|[0-9a-f]{4}: \S+ ?(.*?)(?: // .*)?$', line):
            member.setdefault('code', []).append(instruction(m[1], m[2]))
        elif m := re.match(r'      catches +: (.*)', line):
            tries = 0 if m[1] == '(none)' else m[1].split()[0]
            lines.append(f"    registers {member['registers']} ins {member['ins']} tries {tries}")
            lines += member.pop('code', [])
    return lines


def main_source(size):
    yield '.class public Lgen/Main;\n.super Landroid/app/Activity;'
    yield '.method public onCreate(Landroid/os/Bundle;)V\n.registers 4'
    yield 'invoke-static {}, Lvendor/Device;->id()Ljava/lang/String;\nmove-result-object v0'
    for i in range(size):
        yield f'invoke-static {{v0}}, {WORK}->m{i}{UNARY}\nmove-result-object v1'
        yield f'invoke-static {{v1}}, Lvendor/Net;->post({OBJECT})V'
    yield 'return-void\n.end method'


def work_source(seed, size):
    state = seed

    def draw(n):
        nonlocal state
        state = (state * 1103515245 + 12345) % 2 ** 31
        return state // 65536 % n

    yield f'.class public {WORK}\n.super {OBJECT}\n.field public static s:{OBJECT}'
    for i in range(size):
        yield f'.method public static m{i}{UNARY}\n.registers 3'
        body = draw(4)
        if body == 0 or body == 1 and i == size - 1:
            yield 'return-object v2'
        elif body == 1:
            yield f'invoke-static {{v2}}, {WORK}->m{i + 1 + draw(size - i - 1)}{UNARY}'
            yield 'move-result-object v0\nreturn-object v0'
        elif body == 2:
            yield f'const/4 v0, 1\nnew-array v1, v0, [{OBJECT}\nconst/4 v0, 0'
            yield 'aput-object v2, v1, v0\naget-object v0, v1, v0\nreturn-object v0'
        else:
            yield f'sput-object v2, {WORK}->s:{OBJECT}\nconst/4 v0, 0\nreturn-object v0'
        yield '.end method'


def assembled(seed, size):
    """The listing of the app that smali assembles."""
    with tempfile.TemporaryDirectory() as folder:
        for name, source in [('Main', main_source(size)), ('Work', work_source(seed, size))]:
            with open(f'{folder}/{name}.smali', 'w') as out:
                out.writelines(line + '\n' for line in source)
        subprocess.run(['smali', 'assemble', '-a', '15', '-o', f'{folder}/classes.dex', folder], check=True)
        return dumped(f'{folder}/classes.dex')


def members_of(listing):
    """The classes and members of a listing, each with its lines, by their names: smali orders methods by name, and the program by number."""
    members = []
    for line in listing:
        if line.startswith(('class ', '  field ', '  method ')):
            members.append([])
        members[-1].append(line)
    return sorted(members)


def compare(program, folder):
    """Whether the program's apps are listed as the assembled ones."""
    same = True
    for seed, size in [(1, 1), (0, 1), (3, 5), (7, 50), (2147483647, 100), (12345, 333), (7, 2000)]:
        name = f'{folder}/{seed}_{size}.dex'
        subprocess.run([program, str(seed), str(size), name], check=True)
        here = members_of(dumped(name)) == members_of(assembled(seed, size))
        same &= here
        print(f"seed {seed} size {size}: {'as assembled' if here else 'OTHERWISE'}")
    return same


if os.path.isdir(sys.argv[2]):
    sys.exit(not compare(sys.argv[1], sys.argv[2]))
print('\n'.join(assembled(int(sys.argv[1]), int(sys.argv[2]))))
