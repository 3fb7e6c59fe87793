#!/usr/bin/env python3
"""Times `story` beside `check` on an app of a million rows with 1,000 findings, with which few of the rows have to
do.

usage: story_time.py PROGRAM FOLDER [FILLERS] (the built program, a folder to work in, and how many methods fill the
table, 290 where no number is named; needs Debian's smali)

The app has 1,000 methods of which each takes the device id and posts it. An event calls 32 methods, each of which
calls 32 of them, so that no story is long; and it calls methods that hold eight objects over 350 instructions and do
nothing with them. Prints the rows, the findings, the lines of all stories, the least processor time of three runs of
each word, their ratio, and how many bytes a row `story` takes at its peak beyond what `check` does.
"""
import os
import subprocess
import sys
from made_app import put_forms, timed

FINDINGS, GROUP = 1000, 32
OBJECT = 'Ljava/lang/Object;'


def method(head, registers, lines):
    return '\n'.join([f'.method public {head}', f'    .registers {registers}'] + [f'    {text}' for text in lines]
                     + ['    return-void', '.end method'])


def called(name):
    return f'invoke-static {{}}, Lgen/Main;->{name}()V'


def senders():
    send = ['invoke-static {}, Lvendor/Device;->id()Ljava/lang/String;', 'move-result-object v0',
            f'invoke-static {{v0}}, Lvendor/Net;->post({OBJECT})V']
    yield from (method(f'static send{number}()V', 1, send) for number in range(FINDINGS))
    for group in range(0, FINDINGS, GROUP):
        sends = range(group, min(group + GROUP, FINDINGS))
        yield method(f'static group{group}()V', 0, [called(f'send{n}') for n in sends])


def fillers(count):
    held = []
    for register in range(1, 9):
        held += [f'new-instance v{register}, {OBJECT}', f'invoke-direct {{v{register}}}, {OBJECT}-><init>()V']
    for number in range(count):
        yield method(f'static fill{number}()V', 9, held + ['const/4 v0, 0x0'] * 350)


def write_app(folder, count):
    os.makedirs(f'{folder}/smali', exist_ok=True)
    event = [called(f'group{group}') for group in range(0, FINDINGS, GROUP)]
    event += [called(f'fill{n}') for n in range(count)]
    parts = ['.class public Lgen/Main;', '.super Landroid/app/Activity;',
             method('onCreate(Landroid/os/Bundle;)V', 2, event), *senders(), *fillers(count)]
    with open(f'{folder}/smali/Main.smali', 'w') as out:
        out.write('\n'.join(parts) + '\n')
    subprocess.run(['smali', 'assemble', '-a', '15', '-o', f'{folder}/classes.dex', f'{folder}/smali'], check=True)
    put_forms(folder)


def rows_of(program, folder):
    """How many rows follow, by the certificate."""
    subprocess.run([program, 'certify', folder, f'{folder}/app.cert'], capture_output=True)
    with open(f'{folder}/app.cert', 'rb') as file:
        return int.from_bytes(file.read(44)[40:], 'little')


def main():
    program, folder = sys.argv[1:3]
    write_app(folder, int(sys.argv[3]) if len(sys.argv) > 3 else 290)
    rows = rows_of(program, folder)
    check, least, report = timed([program, 'check', folder, '1'], 3)
    story, most, told = timed([program, 'story', folder], 3)
    assert told.startswith(report), told[:200]
    lines = told.count(b'\n') - report.count(b'\n')
    print(f'{rows} rows, {report.count(b" -> ")} findings, {lines} lines of stories: check {check:.2f} s and '
          f'{least / rows:.0f} bytes a row, story {story:.2f} s, {story / check:.2f} times, '
          f'and {(most - least) / rows:.0f} bytes a row more')


main()
