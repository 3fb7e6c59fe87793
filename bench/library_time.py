"""Times library calls by lists of 1,000 to 16,000 method rows, for one program or for several side by side, as ratios in one run.

usage: library_time.py FOLDER VET [VET ..] (a folder to work in; each program answers `check DIR 1`)

The app is assembled by Debian's smali: METHODS methods of CALLS calls each, to rows that lie evenly over the lists, every second
one by a class below the row's. Beside it stands the same app with no call, so that reading the lists can be taken away. Prints for
each size and program the least processor time of five runs with and without the calls, what the calls take, and that as a ratio
to the size before.
"""
import os
import subprocess
import sys

folder, programs = sys.argv[1], sys.argv[2:]
METHODS, CALLS, ROWS_OF_CLASS = 80, 50, 16
MAIN = 'Lapp/Main;'


def lists(rows):
    yield 'rows = 4000000\ncategories = ["device_id", "network"]\n'
    yield '[[class]]\nname = "Ljava/lang/Object;"\ndefault = "blank"\n'
    for c in range(rows // ROWS_OF_CLASS):
        yield f'[[class]]\nname = "Llib/Class{c};"\nparents = ["Ljava/lang/Object;"]\n'
        yield f'[[class]]\nname = "Llib/Below{c};"\nparents = ["Llib/Class{c};"]\n'
    for r in range(rows):
        yield (f'[[method]]\nclass = "Llib/Class{r // ROWS_OF_CLASS};"\nname = "method{r % ROWS_OF_CLASS}"\n'
               'static = true\nproto = "(I)I"\nresult = "joined"\nfrom = [0]\n')


def smali(rows, calls):
    yield f'.class public {MAIN}\n.super Landroid/app/Activity;'
    yield '.method public onCreate(Landroid/os/Bundle;)V\n    .registers 3'
    for m in range(METHODS):
        yield f'    invoke-static {{}}, {MAIN}->method{m}()V'
    yield '    return-void\n.end method'
    total = METHODS * CALLS
    for m in range(METHODS):
        yield f'.method public static method{m}()V\n    .registers 1\n    const/4 v0, 1'
        for c in range(CALLS if calls else 0):
            number = m * CALLS + c
            row = number * rows // total
            name = f'{"Below" if number % 2 else "Class"}{row // ROWS_OF_CLASS}'
            yield f'    invoke-static {{v0}}, Llib/{name};->method{row % ROWS_OF_CLASS}(I)I'
        yield '    return-void\n.end method'


def app(rows, calls):
    path = f'{folder}/{"calls" if calls else "none"}{rows}'
    os.makedirs(path, exist_ok=True)
    with open(f'{path}/Main.smali', 'w') as out:
        out.write('\n'.join(smali(rows, calls)) + '\n')
    subprocess.run(['smali', 'assemble', '-a', '15', '-o', f'{path}/classes.dex', f'{path}/Main.smali'], check=True)
    with open(f'{path}/manifest.toml', 'w') as out:
        out.write(f'package = "app"\ndex_files = 1\n[[component]]\nkind = "activity"\nclass = "{MAIN}"\n')
    for name in ['layouts.toml', 'declaration.toml']:
        open(f'{path}/{name}', 'w').close()
    with open(f'{path}/lists.toml', 'w') as out:
        out.write('\n'.join(lists(rows)))
    return path


def timed(program, path):
    """The least processor time of five runs in seconds, and the first line that was printed."""
    times = []
    for _ in range(5):
        ran = subprocess.Popen([program, 'check', path, '1'], stdout=subprocess.PIPE)
        report = ran.stdout.read()
        _, _, used = os.wait4(ran.pid, 0)
        times.append(used.ru_utime + used.ru_stime)
    return min(times), report.decode().split('\n')[0]


before = {}
for rows in [1000, 2000, 4000, 8000, 16000]:
    with_calls, without = app(rows, True), app(rows, False)
    for program in programs:
        own, report = timed(program, with_calls)
        bare, _ = timed(program, without)
        calls = max(own - bare, 0.001)
        ratio = f' x{calls / before[program]:.2f}' if program in before else ''
        before[program] = calls
        print(f'{rows} rows, {os.path.basename(program)}: {own * 1000:.0f} ms, without calls {bare * 1000:.0f} ms, '
              f'{METHODS * CALLS} calls {calls * 1000:.0f} ms{ratio}  {report}')
