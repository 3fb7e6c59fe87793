#!/usr/bin/env python3
"""Writes a DEX file whose one method calls, without registers, a library method of so many int parameters:
many_parameters.py TARGET COUNT."""
import os
import struct
import sys

sys.path.insert(0, os.path.join(os.path.dirname(os.path.abspath(__file__)), '..', 'bench'))
from dex_writer import PUBLIC, RETURN_VOID, STATIC, DexFile, code_item

INVOKE_STATIC = 0x0071
target, count = sys.argv[1], int(sys.argv[2])
dex = DexFile()
called = dex.method('Llib;', 'call', 'V', ['I'] * count)
units = struct.pack('<4H', INVOKE_STATIC, called, 0, RETURN_VOID)
code = dex.method('La/Main;', 'code')
dex.add_class('La/Main;', 'Landroid/app/Activity;', methods=[(code, PUBLIC | STATIC, code_item(1, 0, units))])
with open(target, 'wb') as out:
    out.write(dex.bytes())
