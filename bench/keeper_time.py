"""Times the commands of the desk over a keeper in memory with 1,000, 10,000 and 100,000 cases.

usage: keeper_time.py PROGRAM (the program that `rt run` built in crates/desk_cases)

The program puts each command as often as there are cases (lists a hundred times, the submissions of one developer five
hundred times) and says what one takes. Prints for each command the least microseconds of three runs at each number of
cases, and behind them the ratio to the first number. A ratio that grows with the cases would be a walk over them.
"""
import re
import subprocess
import sys
from collections import defaultdict

RUNS = 3
taken = defaultdict(dict)
for _ in range(RUNS):
    said = subprocess.run([sys.argv[1], 'times'], capture_output=True, text=True, check=True).stdout
    for line in said.splitlines():
        if begin := re.fullmatch(r'(\d+) cases( of one developer)?', line):
            cases, own = int(begin[1]), ', all of one developer' if begin[2] else ''
        else:
            command, nanos = re.fullmatch(r'(.*): \d+ replies, (\d+) ns each', line).groups()
            row = taken[' '.join(command.split()[3:]) + ' by ' + command.split()[2] + own]
            row[cases] = min(row.get(cases, float('inf')), int(nanos) / 1000)
sizes = sorted({size for row in taken.values() for size in row})
print(f'{"command":<45}' + ''.join(f'{size:>10} {"ratio":>6}' for size in sizes))
for command, row in taken.items():
    print(f'{command:<45}' + ''.join(f'{row[size]:>10.1f} {row[size] / row[sizes[0]]:>6.1f}' for size in sizes))
