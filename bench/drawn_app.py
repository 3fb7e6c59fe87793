"""Makes the folder of an app that is drawn from a seed: classes in hierarchies of four, whose methods make, hold and call each
other's objects, and an activity whose events reach them. Much follows at once in such an app, unlike in the made apps, which are
one chain of calls. It is assembled by Debian's smali.

usage: drawn_app.py FOLDER SEED CLASSES
"""
import os
import subprocess
import sys
from made_app import put_forms

OBJECT = 'Ljava/lang/Object;'
BUILDER = 'Ljava/lang/StringBuilder;'
DEVICE_ID = 'invoke-static {}, Lvendor/Device;->id()Ljava/lang/String;'


class Draws:
    """Numbers by a linear congruence of 64 bits, of which the upper 31 are taken."""

    def __init__(self, seed):
        self.state = seed

    def below(self, limit):
        self.state = (self.state * 6364136223846793005 + 1442695040888963407) % 2 ** 64
        return (self.state >> 33) % limit

    def local(self):
        return f'v{self.below(5)}'

    def held(self, arguments):
        """A local or an argument."""
        return arguments[self.below(len(arguments))] if self.below(3) == 0 else self.local()


def made_object(register, number):
    return [f'new-instance {register}, Lh/C{number};', f'invoke-direct {{{register}}}, Lh/C{number};-><init>()V']


def line(draws, place, own, other, arguments):
    """The instructions of one line, `other` being the class that it deals with."""
    held, local, kind = lambda: draws.held(arguments), draws.local, draws.below(16)
    if kind in (0, 1):
        return made_object(f'v{1 + draws.below(3)}', other)
    if kind in (2, 3):
        return [f'iput-object {held()}, {held()}, Lh/C{other};->f{draws.below(3)}:{OBJECT}']
    if kind in (4, 5):
        return [f'iget-object {local()}, {held()}, Lh/C{other};->f{draws.below(3)}:{OBJECT}']
    if kind in (6, 7):
        return [f'invoke-virtual {{{own}, {held()}}}, Lh/C{other};->a({OBJECT}){OBJECT}', f'move-result-object {local()}']
    if kind in (8, 9):
        return [f'invoke-static {{{held()}, {held()}}}, Lh/C{other};->b({OBJECT}{OBJECT}){OBJECT}', f'move-result-object {local()}']
    if kind == 10:
        return [f'if-eqz v0, :l{place}', f'invoke-virtual {{{held()}}}, Lh/C{other};->c()V', f':l{place}']
    if kind == 11:
        return [f'new-instance v2, {BUILDER}', f'invoke-direct {{v2}}, {BUILDER}-><init>()V',
                f'invoke-virtual {{v2, {held()}}}, {BUILDER}->append(Ljava/lang/String;){BUILDER}',
                f'invoke-virtual {{v2}}, {BUILDER}->toString()Ljava/lang/String;', f'move-result-object {local()}']
    if kind == 12 and draws.below(6) == 0:
        return [f'sput-object {held()}, Lh/C{other};->s:{OBJECT}']
    if kind == 13 and draws.below(6) == 0:
        return [f'sget-object {local()}, Lh/C{other};->s:{OBJECT}']
    if kind == 14 and draws.below(8) == 0:
        return [DEVICE_ID, f'move-result-object {local()}']
    if kind == 15 and draws.below(8) == 0:
        return [f'invoke-static {{{held()}}}, Lvendor/Net;->post({OBJECT})V']
    return [f'move-object {local()}, {held()}']


def body(draws, number, classes, own, arguments):
    lines = ['const/4 v0, 0', 'const-string v4, "x"'] + made_object('v1', number)
    for place in range(6 + draws.below(10)):
        other = (number + draws.below(12)) % classes
        lines += line(draws, place, own, other, arguments)
    return lines


def method(head, registers, lines):
    return '\n'.join([f'.method public {head}', f'    .registers {registers}'] + [f'    {text}' for text in lines] + ['.end method'])


def drawn_class(draws, number, classes):
    above = OBJECT if number % 4 == 0 else f'Lh/C{number - 1};'
    parts = [f'.class public Lh/C{number};', f'.super {above}']
    parts += [f'.field public f{f}:{OBJECT}' for f in range(3)] + [f'.field public static s:{OBJECT}']
    parts.append(method('constructor <init>()V', 1, ['return-void']))
    lines = body(draws, number, classes, 'v5', ['v5', 'v6'])
    parts.append(method(f'a({OBJECT}){OBJECT}', 7, lines + [f'return-object {draws.local()}']))
    lines = body(draws, number, classes, 'v1', ['v5', 'v6'])
    parts.append(method(f'static b({OBJECT}{OBJECT}){OBJECT}', 7, lines + [f'return-object {draws.local()}']))
    parts.append(method('c()V', 6, body(draws, number, classes, 'v5', ['v5']) + ['return-void']))
    return '\n'.join(parts)


def activity(draws, classes):
    parts = ['.class public Lgen/Main;', '.super Landroid/app/Activity;']
    for event in ['onCreate(Landroid/os/Bundle;)V', 'onResume()V', 'onPause()V']:
        lines = [DEVICE_ID, 'move-result-object v3']
        for _ in range(1 + classes // 8):
            number = draws.below(classes)
            lines += made_object('v1', number) + [f'invoke-virtual {{v1, v3}}, Lh/C{number};->a({OBJECT}){OBJECT}',
                                                  'move-result-object v2', f'invoke-virtual {{v1}}, Lh/C{number};->c()V']
        parts.append(method(event, 8, lines + [f'invoke-static {{v2}}, Lvendor/Net;->post({OBJECT})V', 'return-void']))
    return '\n'.join(parts)


def drawn(path, seed, classes):
    """Makes the folder of the app of that seed and so many classes."""
    draws = Draws(seed)
    os.makedirs(f'{path}/smali', exist_ok=True)
    texts = [drawn_class(draws, number, classes) for number in range(classes)]
    for number, text in enumerate(texts + [activity(draws, classes)]):
        with open(f'{path}/smali/Class{number}.smali', 'w') as out:
            out.write(text + '\n')
    subprocess.run(['smali', 'assemble', '-a', '15', '-o', f'{path}/classes.dex', f'{path}/smali'], check=True)
    put_forms(path)


if __name__ == '__main__':
    drawn(sys.argv[1], int(sys.argv[2]), int(sys.argv[3]))
