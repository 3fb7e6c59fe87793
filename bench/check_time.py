"""Times the program on made apps of growing size, beside another program of the same analysis, as a ratio in one run.

usage: check_time.py VET OTHER FOLDER (the program that `./vet --prove` built; a program that answers `--keys 5 check DIR 1` with
the same report, writes the DEX file of a made app by `--keys 5 dex-make SEED SIZE FILE` and tells its rows by `--keys 5 make SEED
SIZE 1`; and a folder to work in)

Prints for each size the rows, the least processor time of five runs of each, their ratio, the time a row, the peak memory a row,
and whether both reports are the same.
"""
import sys
from made_app import made, timed

program, other, folder = sys.argv[1:4]
for size in [500, 1000, 2000, 4000]:
    path = f'{folder}/{size}'
    rows = made(other, path, size)
    own, peak, report = timed([program, 'check', path, '1'])
    theirs, _, reported = timed([other, '--keys', '5', 'check', path, '1'])
    same = 'the same report' if report == reported else 'ANOTHER REPORT'
    print(f'{size}: {rows} rows, {own * 1000:.0f} ms beside {theirs * 1000:.0f} ms, ratio {own / max(theirs, 0.001):.1f}, '
          f'{own / rows * 1e6:.2f} microseconds and {peak / rows:.0f} bytes a row, {same}')
