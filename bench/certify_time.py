"""Times certificates: writing one and checking it again, beside another program of the same analysis, as ratios in one run.

usage: certify_time.py VET OTHER FOLDER (the program that `./vet --prove` built; a program that answers `--keys 5 certify DIR CERT`
with the same report and the same certificate, writes the DEX file of a made app by `--keys 5 dex-make SEED SIZE FILE` and tells
its rows by `--keys 5 make SEED SIZE 1`; and a folder to work in)

First the app of the seed 7 with 2,000 drawn methods: the least processor time of five runs of the program's `certify`, of its
`recheck` of that certificate and of the other program's `certify`, the ratios, and whether reports and certificates are the
same. Then an app of about 1,000,000 rows, certified by the other program: the time in which the program reads and checks that
certificate, the time a row, and the peak memory a row.
"""
import os
import sys
from made_app import made, timed

program, other, folder = sys.argv[1:4]


def bytes_of(name):
    with open(name, 'rb') as read:
        return read.read()


path = f'{folder}/certified_2000'
rows = made(other, path, 2000)
own, theirs = f'{path}/own.cert', f'{path}/other.cert'
writing, peak, report = timed([program, 'certify', path, own])
checking, checked_peak, checked = timed([program, 'recheck', path, own])
beside, _, reported = timed([other, '--keys', '5', 'certify', path, theirs])
reports = 'the same reports' if report == checked == reported else 'OTHER REPORTS'
certificates = 'the same certificate' if bytes_of(own) == bytes_of(theirs) else 'ANOTHER CERTIFICATE'
print(f'{rows} rows: certify {writing * 1000:.0f} ms beside {beside * 1000:.0f} ms, ratio {writing / max(beside, 0.001):.1f}; '
      f'recheck {checking * 1000:.0f} ms, ratio {checking / max(beside, 0.001):.1f}; '
      f'{peak / rows:.0f} and {checked_peak / rows:.0f} bytes a row; {reports}, {certificates}')

path = f'{folder}/certified_16500'
rows = made(other, path, 16500)
given = f'{path}/other.cert'
_, _, reported = timed([other, '--keys', '5', 'certify', path, given], 1)
checking, peak, checked = timed([program, 'recheck', path, given], 3)
print(f'{rows} rows in {os.path.getsize(given)} bytes: read and checked in {checking * 1000:.0f} ms, '
      f'{checking / rows * 1e6:.2f} microseconds and {peak / rows:.0f} bytes a row, '
      f"{'the same report' if checked == reported else 'ANOTHER REPORT'}")
