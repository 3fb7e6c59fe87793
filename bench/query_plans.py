"""Shows how SQLite itself looks up what the keeper of cases asks for.

usage: query_plans.py (needs the program sqlite3)

Takes the statements out of the sources of crates/case_tables, makes its tables in a new file, puts 2,000 cases into
them, and asks `EXPLAIN QUERY PLAN` of every look-up and change, before and after `ANALYZE`. Prints each with its plan,
and ends with status 1 where a look-up is not a search by an index or a primary key in each of its steps, as where it goes
through a whole table or sorts. What raises a database of version 1, the one row of `version`, and what is noted of all
cases as a database is opened, is left out: that is gone through once.

The plans are those of SQLite. The keeper runs its statements by the crate `sqlite`, which chooses its own and does not
tell them.
"""
import pathlib
import re
import subprocess
import sys
import tempfile

SOURCES = pathlib.Path(__file__).parent.parent / 'crates/case_tables/src'
FILES = ['reading.rt', 'changing.rt']
VERBS = ('SELECT', 'INSERT', 'UPDATE', 'DELETE')

CASES = """
WITH RECURSIVE many(n) AS (SELECT 1 UNION ALL SELECT n + 1 FROM many WHERE n < 2000)
INSERT INTO cases SELECT n, 'd' || (n / 100), 'r' || n, zeroblob(500), x'', zeroblob(100) FROM many;
INSERT INTO dex SELECT number, 0, zeroblob(4000) FROM cases;
INSERT INTO entries SELECT number, 0, 'flagged', zeroblob(200), zeroblob(32), 'rex', 100 FROM cases
    WHERE number <= 1990;
INSERT INTO entry_appeals SELECT number, 0, 101, zeroblob(30) FROM entries WHERE number % 50 = 0;
"""


def literals(name):
    """The texts in a source that begin as a statement."""
    text = (SOURCES / name).read_text()
    found = re.findall(r'"((?:[^"\\]|\\.)*)"', text)
    return [' '.join(one.split()) for one in found if one.lstrip().startswith(VERBS)]


def tables():
    found = re.search(r'const TABLES: &str = "([^"]*)"', (SOURCES / 'tables.rt').read_text())
    return found[1] + ';'


def asked(file, sql):
    return subprocess.run(['sqlite3', file, sql], capture_output=True, text=True, check=True).stdout


def plan(file, statement):
    """The lines of a plan, without the rules that sqlite3 draws in front of them."""
    said = asked(file, f'EXPLAIN QUERY PLAN {statement}')
    return [re.sub(r'^[ |`-]*', '', line) for line in said.splitlines() if line != 'QUERY PLAN']


def is_search(line):
    return re.fullmatch(r'SEARCH \S+ USING (COVERING INDEX|INDEX|INTEGER PRIMARY KEY) .*\)( LEFT-JOIN)?', line)


def is_slow(statement, lines):
    """Whether a step is no search; what adds a row of given values has no step."""
    return not lines and not statement.startswith('INSERT') or not all(map(is_search, lines))


def main():
    statements = list(dict.fromkeys(statement for name in FILES for statement in literals(name)))
    slow = 0
    with tempfile.TemporaryDirectory() as folder:
        file = f'{folder}/desk.sqlite'
        asked(file, tables() + CASES)
        for when in ('before ANALYZE', 'after ANALYZE'):
            print(f'-- {when}')
            for statement in statements:
                lines = plan(file, statement)
                slow += is_slow(statement, lines)
                print(f'{statement}\n    ' + '\n    '.join(lines or ['(no look-up)']))
            asked(file, 'ANALYZE')
    print(f'{len(statements)} statements, {slow} plans with a step that is no search')
    return 1 if slow or not statements else 0


sys.exit(main())
