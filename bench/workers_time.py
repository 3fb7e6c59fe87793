"""Times the program on made apps by several numbers of workers, beside one worker and beside another program of the same analysis.

usage: workers_time.py VET OTHER FOLDER [APP ..] (the program that `./vet --prove` built; a program that answers `--keys 5 check DIR
1` with the same report, writes the DEX file of a made app by `--keys 5 dex-make SEED SIZE FILE`, tells its rows by `--keys 5 make
SEED SIZE 1` and those of a folder by `--keys 5 bench-dir DIR`; a folder to work in; and apps: SIZE for the made app of so many
methods, SEEDxCLASSES for a drawn one, which Debian's smali assembles; 2000, 16000 and 4x10 where none is said)

Prints for each app the rows, and for 1, 2, 4 and 16 workers the least time by the clock of five runs of `check`, the processor time
of that run, and whether the report is that of one worker. The search for what follows and its check are shared out: reading,
linking and the sort at the end are one thread's.
"""
import re
import subprocess
import sys
import time
from drawn_app import drawn
from made_app import made, timed

program, other, folder = sys.argv[1:4]
apps = sys.argv[4:] or ['2000', '16000', '4x10']


def clocked(command):
    """The least time by the clock of five runs, the processor time of that run, and what it printed."""
    best = None
    for _ in range(5):
        begun = time.monotonic()
        spent, _, report = timed(command, runs=1)
        took = time.monotonic() - begun
        if best is None or took < best[0]:
            best = (took, spent, report)
    return best


def app(word, path):
    """Makes the folder of an app, and gives its number of rows."""
    if 'x' not in word:
        return made(other, path, int(word))
    seed, classes = word.split('x')
    drawn(path, int(seed), int(classes))
    told = subprocess.run([other, '--keys', '5', 'bench-dir', path], capture_output=True, text=True).stdout
    return int(re.search(r'rows (\d+)', told).group(1))


for word in apps:
    path = f'{folder}/{word}'
    rows = app(word, path)
    theirs, _, _ = clocked([other, '--keys', '5', 'check', path, '1'])
    print(f'{word}: {rows} rows, the other program {theirs * 1000:.0f} ms')
    first = None
    for workers in [1, 2, 4, 16]:
        took, spent, report = clocked([program, 'check', path, str(workers)])
        first = first or (took, report)
        same = 'the same report' if report == first[1] else 'ANOTHER REPORT'
        print(f'  {workers} workers: {took * 1000:.0f} ms, {took / first[0]:.2f} of one, {spent * 1000:.0f} ms of processors, {same}')
