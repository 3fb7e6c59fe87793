#!/usr/bin/env python3
"""Writes a file with some bytes changed: changed.py FROM TO OLD NEW. OLD and NEW are hexadecimal and of one length, and OLD stands once in FROM."""
import sys

source, target, old, new = sys.argv[1:]
old, new = bytes.fromhex(old), bytes.fromhex(new)
text = open(source, "rb").read()
if len(old) != len(new) or text.count(old) != 1:
    sys.exit(f"{source}: not one place for {old.hex(' ')}")
open(target, "wb").write(text.replace(old, new))
