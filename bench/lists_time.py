"""Times the program on lists of 500 to 8,000 classes and as many rows of methods, in one run.

usage: lists_time.py VET FOLDER (the program that `./vet --prove` built, and a folder to work in)

Everything else in the app is empty but for the manifest, so the program reads the forms and then refuses the DEX file. Prints
for each size the least time of five runs, the ratio to the one before, and the line that the program printed.
"""
import os
import sys

from runs import time_check

program, folder = sys.argv[1], sys.argv[2]


def lists(rows):
    yield 'rows = 200000\ncategories = ["device_id", "network"]\n'
    yield '[[class]]\nname = "Ljava/lang/Object;"\ndefault = "blank"\n'
    for i in range(rows):
        yield f'[[class]]\nname = "Llib/part{i % 37}/Class{i};"\nparents = ["Ljava/lang/Object;"]\ndefault = "joined"\n'
    for i in range(rows):
        yield (f'[[method]]\nclass = "Llib/part{i % 37}/Class{i};"\nname = "method{i % 11}"\n'
               'proto = "(Ljava/lang/String;J)Ljava/lang/String;"\nresult = "joined"\nfrom = [0, 1]\nputs = [[1, 0]]\n'
               'sink = "network"\npositions = [1]\n')


def app(rows):
    path = f'{folder}/lists{rows}'
    os.makedirs(path, exist_ok=True)
    with open(f'{path}/manifest.toml', 'w') as out:
        out.write('package = "app"\ndex_files = 1\n')
    for name in ['layouts.toml', 'declaration.toml', 'classes.dex']:
        open(f'{path}/{name}', 'w').close()
    with open(f'{path}/lists.toml', 'w') as out:
        out.write('\n'.join(lists(rows)))
    return path


time_check(program, ((f'{n} classes and rows', app(n), 'lists.toml') for n in [500, 1000, 2000, 4000, 8000]))
