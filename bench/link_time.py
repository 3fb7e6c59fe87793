"""Times the program on apps of 1,000 to 8,000 methods: reading, decoding and linking, and what follows
from their few rows.

usage: link_time.py VET FOLDER (the program that `./vet --prove` built, and a folder to work in)

The apps are assembled by Debian's smali. Prints for each the size of its DEX file, the least time of five runs, the ratio
to the one before, and the line that the program printed.
"""
import os
import shutil
import sys

from runs import time_check
from smali_apps import assemble

program, folder = sys.argv[1], sys.argv[2]
lists = os.path.join(os.path.dirname(os.path.abspath(__file__)), '..', 'examples', 'lists.toml')


def app(methods):
    path = f'{folder}/{methods}'
    os.makedirs(path, exist_ok=True)
    assemble(methods, f'{path}/classes.dex')
    with open(f'{path}/manifest.toml', 'w') as out:
        out.write('package = "app"\ndex_files = 1\n[[component]]\nkind = "activity"\nclass = "Lapp/part0/Class0;"\n')
    for name in ['layouts.toml', 'declaration.toml']:
        open(f'{path}/{name}', 'w').close()
    shutil.copy(lists, f'{path}/lists.toml')
    return path


time_check(program, ((f'{n} methods', app(n), 'classes.dex') for n in [1000, 2000, 4000, 8000]))
