"""Makes apps of very many classes under lists of very many classes and callback rows, and shows time and peak memory of `check`.

usage: hostile_lists.py VET FOLDER [OTHER] (the program that `./vet --prove` built, a folder to work in, and a program of the
same analysis to run beside it, as for check_time.py)

Each app has 60,000 classes, each list 16,000 classes and 4,000 callback rows, but for `lists_in_a_chain`. Prints for each the
size of its DEX file, seconds of processor time, MB, what the other program took, and the first line that was printed.
"""
import os
import resource
import shutil
import struct
import subprocess
import sys

from dex_writer import PUBLIC, RETURN_VOID, DexFile, code_item

CLASSES, LISTED, ROWS = 60_000, 16_000, 4_000
ABOVE_AT_MOST = 64
SECONDS, BYTES = 120, 4 << 30
MAIN, BUNDLE = 'La/Main;', 'Landroid/os/Bundle;'
OBJECT = 'Ljava/lang/Object;'


def unit(*units):
    return struct.pack(f'<{len(units)}H', *units)


def nothing():
    return code_item(1, 1, unit(RETURN_VOID))


def with_main(dex, units=b'', registers=3):
    """The activity, whose `onCreate` runs these units."""
    begin = (dex.method(MAIN, 'onCreate', 'V', [BUNDLE]), PUBLIC, code_item(registers, 2, units + unit(RETURN_VOID)))
    dex.add_class(MAIN, 'Landroid/app/Activity;', methods=[begin])
    return dex


def handing(dex, names):
    """Units that make an object of each class and hand it to the library."""
    take = dex.method('Llib;', 'take', 'V', [OBJECT])
    return b''.join(unit(0x0022, dex.type(name)) + unit(0x1071, take, 0) for name in names)


def callback(of, name):
    return f'[[callback]]\nclass = "{of}"\nname = "{name}"\nproto = "()V"\n'


def listed(name, parents=(OBJECT,)):
    above = ', '.join(f'"{parent}"' for parent in parents)
    return f'[[class]]\nname = "{name}"\nparents = [{above}]\ndefault = "blank"\n'


def lists(classes, callbacks, first='take'):
    return ('rows = 4000000\ncategories = ["device_id", "network"]\n'
            f'[[class]]\nname = "{OBJECT}"\ndefault = "blank"\n'
            + listed('Landroid/content/Context;') + listed('Landroid/app/Activity;', ['Landroid/content/Context;'])
            + listed('Llib;') + ''.join(classes)
            + '[[method]]\nclass = "Llib;"\nname = "take"\nproto = "(Ljava/lang/Object;)V"\nstatic = true\n'
            + ''.join(callbacks))


def apart():
    """Each class of the app below another listed one, with a body of one callback."""
    dex = DexFile()
    for i in range(CLASSES):
        of, name = f'La/C{i};', f'm{i % ROWS}'
        dex.add_class(of, f'Ll/L{i % ROWS};', methods=[(dex.method(of, name), PUBLIC, nothing())])
    names = [f'La/C{i};' for i in range(0, CLASSES, 6)]
    return (with_main(dex, handing(dex, names)), [listed(f'Ll/L{i};') for i in range(LISTED)],
            [callback(f'Ll/L{i};', f'm{i}') for i in range(ROWS)])


def inherited():
    """All classes of the app below one that has a body for each callback row, so each row comes to each class."""
    dex = DexFile()
    base = 'La/Base;'
    dex.add_class(base, 'Ll/L0;', methods=[(dex.method(base, f'm{i}'), PUBLIC, nothing()) for i in range(ROWS)])
    for i in range(CLASSES - 1):
        dex.add_class(f'La/C{i};', base)
    return (with_main(dex, handing(dex, ['La/C0;'])), [listed(f'Ll/L{i};') for i in range(LISTED)],
            [callback('Ll/L0;', f'm{i}') for i in range(ROWS)])


def chained():
    """The classes of the app one below the other, the topmost one below a listed class with all callback rows, no body."""
    dex = DexFile()
    above = 'Ll/L0;'
    for i in range(CLASSES):
        dex.add_class(f'La/C{i};', above)
        above = f'La/C{i};'
    return (with_main(dex, handing(dex, [above])), [listed(f'Ll/L{i};') for i in range(LISTED)],
            [callback('Ll/L0;', f'm{i}') for i in range(ROWS)])


def interfaces():
    """Each class of the app below ten listed interfaces, each of which has as many above it as lists allow."""
    dex = DexFile()
    heads = [f'Ll/L{i};' for i in range(ABOVE_AT_MOST - 3, LISTED, ABOVE_AT_MOST - 2)]
    for i in range(CLASSES):
        dex.add_class(f'La/C{i};', OBJECT, [heads[(i + j) % len(heads)] for j in range(10)])

    def parent(i):
        return [OBJECT] if i % (ABOVE_AT_MOST - 2) == 0 else [f'Ll/L{i - 1};']

    return (with_main(dex, handing(dex, [f'La/C{i};' for i in range(1000)])), [listed(f'Ll/L{i};', parent(i)) for i in range(LISTED)],
            [callback(f'Ll/L{i * LISTED // ROWS};', f'm{i}') for i in range(ROWS)])


def lists_in_a_chain():
    """Listed classes one below the other, which the form refuses past its bound."""
    dex = DexFile()
    dex.add_class('La/C;', f'Ll/L{LISTED - 1};')
    return (with_main(dex), [listed(f'Ll/L{i};', [OBJECT] if i == 0 else [f'Ll/L{i - 1};']) for i in range(LISTED)],
            [callback('Ll/L0;', f'm{i}') for i in range(ROWS)])


CASES = [apart, inherited, chained, interfaces, lists_in_a_chain]


def folder_of(folder, case):
    path = f'{folder}/{case.__name__}'
    shutil.rmtree(path, ignore_errors=True)
    os.makedirs(path)
    dex, classes, callbacks = case()
    texts = {'classes.dex': dex.bytes(), 'lists.toml': lists(classes, callbacks).encode(), 'layouts.toml': b'', 'declaration.toml': b'',
             'manifest.toml': f'package = "a"\ndex_files = 1\n[[component]]\nkind = "activity"\nclass = "{MAIN}"\n'.encode()}
    for name, text in texts.items():
        with open(f'{path}/{name}', 'wb') as out:
            out.write(text)
    return path, len(texts['classes.dex'])


def limits():
    resource.setrlimit(resource.RLIMIT_CPU, (SECONDS, SECONDS))
    resource.setrlimit(resource.RLIMIT_AS, (BYTES, BYTES))
    resource.setrlimit(resource.RLIMIT_CORE, (0, 0))


def run(words):
    """Seconds of processor time, bytes at the peak, and what was said first."""
    child = subprocess.Popen(words, stdout=subprocess.PIPE, stderr=subprocess.DEVNULL, preexec_fn=limits)
    said = child.stdout.read().decode(errors='replace').splitlines()
    _, status, used = os.wait4(child.pid, 0)
    ended = f'signal {os.WTERMSIG(status)}' if os.WIFSIGNALED(status) else f'status {os.WEXITSTATUS(status)}'
    return used.ru_utime + used.ru_stime, used.ru_maxrss * 1024, f'{ended} {said[0][:60] if said else ""}'


def measure(program, folder, other=None):
    for case in CASES:
        child = os.fork()
        if child == 0:
            folder_of(folder, case)
            os._exit(0)
        os.waitpid(child, 0)
        path = f'{folder}/{case.__name__}'
        seconds, memory, said = run([program, 'check', path, '1'])
        beside = ''
        if other:
            theirs, their_memory, they = run([other, '--keys', '5', 'check', path, '1'])
            beside = f', beside {theirs:.2f} s and {their_memory / 1e6:.0f} MB, {"the same answer" if they == said else "ANOTHER: " + they}'
        print(f'{case.__name__}, {os.path.getsize(path + "/classes.dex")} bytes: {seconds:.2f} s, {memory / 1e6:.0f} MB{beside}  {said}', flush=True)
        shutil.rmtree(path)


measure(*sys.argv[1:])
