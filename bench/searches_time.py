"""Times the program on apps that are made for one search of the rules, of doubling size: what is found stays the same for each
thing that asks, while all that a search without a key would go through grows.

usage: searches_time.py VET FOLDER [SIZE ..] (a program that answers `check DIR 1`, a folder to work in, and sizes; 500, 1,000,
2,000 and 4,000 where none is said)

  statics   SIZE statics, each of which gets the same object and is read once: each row of a static asks for its readers
  effects   SIZE methods in a chain of calls, each of which puts the device id into the same box: each register that holds the box
            asks for the effects on it

The apps are assembled by Debian's smali. Prints for each app the processor time of one run, the time an instruction, and the
ratio to the size before, which is 2 where a search finds what it asks for and 4 where it goes through all.
"""
import os
import subprocess
import sys

program, folder = sys.argv[1:3]
sizes = [int(word) for word in sys.argv[3:]] or [500, 1000, 2000, 4000]
example = f'{os.path.dirname(os.path.abspath(__file__))}/../examples/device_id_posted'
MAIN = '.class public La/Main;\n.super Landroid/app/Activity;'
BOX = '''.class public Lapp/Box;
.super Ljava/lang/Object;
.field public held:Ljava/lang/Object;
.method public constructor <init>()V
    .registers 1
    invoke-direct {p0}, Ljava/lang/Object;-><init>()V
    return-void
.end method'''
MAKE_BOX = '    new-instance v0, Lapp/Box;\n    invoke-direct {v0}, Lapp/Box;-><init>()V'
DEVICE_ID = '    invoke-static {}, Lvendor/Device;->id()Ljava/lang/String;\n    move-result-object v1'


def statics(size):
    """The classes of an app of so many statics, 100 to a method, and how many instructions deal with them."""
    count = size // 100
    yield BOX
    yield '\n'.join([MAIN, '.method public onCreate(Landroid/os/Bundle;)V', '    .registers 4', MAKE_BOX]
                    + [f'    invoke-static {{v0}}, Lapp/Part{c};->put(Lapp/Box;)V' for c in range(count)]
                    + [f'    invoke-static {{}}, Lapp/Part{c};->get()V' for c in range(count)]
                    + ['    return-void\n.end method'])
    for c in range(count):
        field = f'Lapp/Part{c};->held'
        yield '\n'.join([f'.class public Lapp/Part{c};\n.super Ljava/lang/Object;']
                        + [f'.field static held{f}:Lapp/Box;' for f in range(100)]
                        + ['.method public static put(Lapp/Box;)V\n    .registers 1']
                        + [f'    sput-object p0, {field}{f}:Lapp/Box;' for f in range(100)]
                        + ['    return-void\n.end method\n.method public static get()V\n    .registers 1']
                        + [f'    sget-object v0, {field}{f}:Lapp/Box;' for f in range(100)]
                        + ['    return-void\n.end method'])


def effects(size):
    """The classes of an app of so many methods that put into the same box."""
    yield BOX
    yield '\n'.join([MAIN, '.method public onCreate(Landroid/os/Bundle;)V', '    .registers 4', MAKE_BOX, DEVICE_ID,
                     '    invoke-static {v0, v1}, Lapp/Steps;->step0(Lapp/Box;Ljava/lang/Object;)V',
                     '    return-void\n.end method'])
    yield '\n'.join(['.class public Lapp/Steps;\n.super Ljava/lang/Object;']
                    + [f'''.method public static step{i}(Lapp/Box;Ljava/lang/Object;)V
    .registers 2
    iput-object p1, p0, Lapp/Box;->held:Ljava/lang/Object;
    {f"invoke-static {{p0, p1}}, Lapp/Steps;->step{i + 1}(Lapp/Box;Ljava/lang/Object;)V" if i + 1 < size else "nop"}
    return-void
.end method''' for i in range(size)])


def app(name, classes):
    """The folder of the app of these classes."""
    path = f'{folder}/{name}'
    os.makedirs(f'{path}/smali', exist_ok=True)
    for c, text in enumerate(classes):
        with open(f'{path}/smali/Class{c}.smali', 'w') as out:
            out.write(text + '\n')
    subprocess.run(['smali', 'assemble', '-a', '15', '-o', f'{path}/classes.dex', f'{path}/smali'], check=True)
    for part in ['manifest.toml', 'layouts.toml', 'declaration.toml', 'lists.toml']:
        with open(f'{example}/{part}') as form, open(f'{path}/{part}', 'w') as out:
            out.write('\n'.join('rows = 4000000' if line.startswith('rows = ') else line for line in form.read().split('\n')))
    return path


def timed(path):
    """The processor time of one run in seconds, and the first line that was printed."""
    ran = subprocess.Popen([program, 'check', path, '1'], stdout=subprocess.PIPE)
    report = ran.stdout.read().decode()
    _, _, used = os.wait4(ran.pid, 0)
    return used.ru_utime + used.ru_stime, report.split('\n')[0]


for kind, make, instructions in [('statics', statics, 2), ('effects', effects, 3)]:
    before = None
    for size in sizes:
        time, said = timed(app(f'{kind}{size}', make(size)))
        ratio = '' if before is None else f' x{time / max(before, 0.001):.2f}'
        before = time
        print(f'{kind} {size}: {time * 1000:.0f} ms, {time / size / instructions * 1e6:.1f} microseconds an instruction{ratio}  {said}')
