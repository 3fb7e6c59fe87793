"""Times the program on apps in which more rows follow than the lists allow, and shows its peak memory: methods that each store
what they got, labelled with the device id, into boxes that their callers made.

usage: aliases_time.py VET FOLDER [METHODS..] (the program that `./vet --prove` built, a folder to work in, and how many methods
the apps have; 800 where none is said)

Prints for each app the processor time, the peak memory, and the first line of the report with the one that says too large.
"""
import os
import subprocess
import sys

program, folder = sys.argv[1:3]
sizes = [int(word) for word in sys.argv[3:]] or [800]
here = os.path.dirname(os.path.abspath(__file__))
example = f'{here}/../examples/device_id_posted'
FIELDS = 30


def box():
    yield '.class public Lapp/Box;\n.super Ljava/lang/Object;'
    for f in range(FIELDS):
        yield f'.field public field{f}:Ljava/lang/Object;'
    yield '''.method public constructor <init>()V
    .registers 1
    invoke-direct {p0}, Ljava/lang/Object;-><init>()V
    return-void
.end method
'''


def step(i, methods):
    """A method that puts what it got into the box of its caller, and hands both on to the next one, but for every fourth; and hands
    a box of its own to another."""
    hand_on = f'    invoke-static {{p0, p1}}, Lapp/Steps;->step{(i + 1) % methods}(Lapp/Box;Ljava/lang/Object;)V\n'
    return f'''.method public static step{i}(Lapp/Box;Ljava/lang/Object;)V
    .registers 3
    iput-object p1, p0, Lapp/Box;->field{i % FIELDS}:Ljava/lang/Object;
{'' if i % 4 == 3 else hand_on}    new-instance v0, Lapp/Box;
    invoke-direct {{v0}}, Lapp/Box;-><init>()V
    invoke-static {{v0, p1}}, Lapp/Steps;->step{(3 * i + 1) % methods}(Lapp/Box;Ljava/lang/Object;)V
    iget-object p1, v0, Lapp/Box;->field{(i + 1) % FIELDS}:Ljava/lang/Object;
    return-void
.end method
'''


def main_class():
    yield '''.class public La/Main;
.super Landroid/app/Activity;
.method public onCreate(Landroid/os/Bundle;)V
    .registers 4
    new-instance v0, Lapp/Box;
    invoke-direct {v0}, Lapp/Box;-><init>()V
    invoke-static {}, Lvendor/Device;->id()Ljava/lang/String;
    move-result-object v1
    invoke-static {v0, v1}, Lapp/Steps;->step0(Lapp/Box;Ljava/lang/Object;)V
    return-void
.end method
'''


def steps_class(methods):
    yield '.class public Lapp/Steps;\n.super Ljava/lang/Object;'
    for i in range(methods):
        yield step(i, methods)


def app(methods):
    path = f'{folder}/{methods}'
    sources = f'{path}/smali'
    os.makedirs(sources, exist_ok=True)
    for name, lines in [('Box', box()), ('Main', main_class()), ('Steps', steps_class(methods))]:
        with open(f'{sources}/{name}.smali', 'w') as out:
            out.write('\n'.join(lines))
    subprocess.run(['smali', 'assemble', '-a', '15', '-o', f'{path}/classes.dex', sources], check=True)
    for name in ['manifest.toml', 'layouts.toml', 'declaration.toml']:
        with open(f'{example}/{name}') as form, open(f'{path}/{name}', 'w') as out:
            out.write(form.read())
    with open(f'{example}/lists.toml') as form, open(f'{path}/lists.toml', 'w') as out:
        out.write('\n'.join('rows = 4000000' if line.startswith('rows = ') else line for line in form.read().split('\n')))
    return path


for methods in sizes:
    path = app(methods)
    ran = subprocess.Popen([program, 'check', path, '1'], stdout=subprocess.PIPE)
    report = ran.stdout.read().decode()
    _, _, used = os.wait4(ran.pid, 0)
    said = [line for i, line in enumerate(report.split('\n')) if i == 0 or line.startswith('too large')]
    print(f'{methods} methods: {used.ru_utime + used.ru_stime:.1f} s, {used.ru_maxrss / 1024:.0f} MiB, {"; ".join(said)}')
