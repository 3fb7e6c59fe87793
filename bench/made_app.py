"""Makes the folder of a generated app, and times a program, for the scripts that measure the whole program beside another one."""
import os
import re
import subprocess

SAMPLE = os.path.join(os.path.dirname(os.path.abspath(__file__)), '..', 'examples', 'tests', 'lists.toml')
MANIFEST = 'package = "gen"\ndex_files = 1\n\n[[component]]\nkind = "activity"\nclass = "Lgen/Main;"\n'


def put_forms(path):
    """Puts beside the DEX files in the folder what they are judged with: a manifest with one activity, no layouts, no
    declaration, and the lists of the examples with the greatest limit of rows."""
    with open(f'{path}/manifest.toml', 'w') as out:
        out.write(MANIFEST)
    for name in ['layouts.toml', 'declaration.toml']:
        open(f'{path}/{name}', 'w').close()
    with open(SAMPLE) as lists, open(f'{path}/lists.toml', 'w') as out:
        out.write(re.sub('(?m)^rows = .*', 'rows = 4000000', lists.read()))


def made(other, path, size):
    """Makes the folder of the app of the seed 7 with `size` drawn methods, whose DEX file the program `other` writes by
    `--keys 5 dex-make SEED SIZE FILE`, and gives its number of rows, which `other` tells by `--keys 5 make SEED SIZE 1`."""
    os.makedirs(path, exist_ok=True)
    subprocess.run([other, '--keys', '5', 'dex-make', '7', str(size), f'{path}/classes.dex'], check=True)
    put_forms(path)
    told = subprocess.run([other, '--keys', '5', 'make', '7', str(size), '1'], capture_output=True, text=True).stdout
    return int(re.search(r'rows (\d+)', told).group(1))


def timed(words, runs=5):
    """The least processor time of some runs in seconds, the greatest peak memory in bytes, and what was printed."""
    times, peak, report = [], 0, b''
    for _ in range(runs):
        ran = subprocess.Popen(words, stdout=subprocess.PIPE)
        report = ran.stdout.read()
        _, _, used = os.wait4(ran.pid, 0)
        times.append(used.ru_utime + used.ru_stime)
        peak = max(peak, used.ru_maxrss * 1024)
    return min(times), peak, report
