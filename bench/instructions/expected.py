"""Writes what `dex_list code` is to print of DEX files: their instructions as `dexdump -d` has them.

usage: expected.py TABLE FILE..    TABLE is dalvik_formats' opcodes.rt, of which the formats of the mnemonics are taken
"""
import sys

from compare import expected, table_of

table = table_of(sys.argv[1])
for path in sys.argv[2:]:
    print('file', path)
    for method in expected(path, table):
        print('method')
        for line in method:
            print(line)
