"""Times the table of facts and measures its memory, by the built program `table_cases`.

usage: table_time.py PROGRAM [ROWS ..] (the program that `rt run` built in crates/table_cases, and numbers of rows)

For each order and number of rows the program fills a table, adds all rows once more, and looks up as many rows that are there as
rows that are not. Prints the microseconds of one add of a new row, of one add of a row that is there and of one look-up: the
processor's time, shared out as the program measured its three parts. Behind add and look-up stands the ratio to the first number
of rows. The last columns are the greatest memory for each row, less that of a run of one row, and its ratio to the bytes of a row.
Needs Debian's `time`.
"""
import re
import subprocess
import sys

ROW = 72
SIZES = [25_000, 100_000, 200_000, 400_000, 1_600_000]


def measured(program, order, rows):
    run = subprocess.run(['time', '-f', '%U %S %M', program, order, str(rows)], capture_output=True, text=True, check=True)
    adds, repeats, looks = (int(n) for n in re.findall(r'(\d+) us', run.stdout))
    user, system, memory = run.stderr.split()
    share = (float(user) + float(system)) * 1e6 / max(1, adds + repeats + looks)
    return adds * share / rows, repeats * share / rows, looks * share / rows / 2, int(memory) * 1024


program = sys.argv[1]
sizes = [int(word) for word in sys.argv[2:]] or SIZES
empty = measured(program, 'random', 1)[3]
print(f'{"order":<10} {"rows":>9} {"add":>6} {"ratio":>6} {"again":>6} {"look":>6} {"ratio":>6} {"bytes":>6} {"ratio":>6}')
for order in 'ascending', 'descending', 'random':
    first = None
    for rows in sizes:
        add, again, look, memory = measured(program, order, rows)
        first = first or (add, look)
        each = (memory - empty) / rows
        print(f'{order:<10} {rows:>9} {add:>6.2f} {add / first[0]:>6.1f} {again:>6.2f} {look:>6.2f} {look / first[1]:>6.1f}'
              f' {each:>6.1f} {each / ROW:>6.2f}')
