"""Times the program on folders of real apps beside another program of the same analysis, as a ratio in one run.

usage: apps_time.py VET OTHER FOLDER.. (the program that `./vet --prove` built; a program that answers `--keys 5 check DIR 1` with
the same report; and folders that tools/unpack made)

Prints for each the size of its DEX files, the least processor time of three runs of each, their ratio, peak memory, and whether
both reports are the same.
"""
import os
import sys

from made_app import timed

program, other = sys.argv[1:3]
for path in sys.argv[3:]:
    size = sum(os.path.getsize(f'{path}/{name}') for name in os.listdir(path) if name.endswith('.dex'))
    own, peak, report = timed([program, 'check', path, '1'], 3)
    theirs, their_peak, reported = timed([other, '--keys', '5', 'check', path, '1'], 3)
    same = 'the same report' if report == reported else 'ANOTHER REPORT'
    first = report.decode(errors='replace').splitlines()[0] if report else ''
    print(f'{os.path.basename(path)}: {size / 1000:.1f} KB, {own * 1000:.0f} ms beside {theirs * 1000:.0f} ms, ratio {own / max(theirs, 0.001):.1f}, '
          f'{peak / 1e6:.0f} MB beside {their_peak / 1e6:.0f}, {same}: {first}', flush=True)
