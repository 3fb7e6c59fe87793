#!/bin/sh
# Decodes DEX files, the given ones and ten with every opcode, and compares the instructions with what `dexdump -d` prints of
# them. It proves nothing and is no part of the gate. It needs rt, smali, dexdump and Python; read_dex must stand.
#
# usage: bench/instructions/run.sh FILE..
set -eu
top=$(cd "$(dirname "$0")/../.." && pwd)
work=$(mktemp -d)
trap 'rm -rf "$work"' EXIT
mkdir "$work/crates"
for crate in vet_base app_machine dalvik_formats dex_tables dex_bodies dex_reader dex_code dex_list; do
    mkdir "$work/crates/$crate"
    for part in src specs proofs; do
        if [ -d "$top/crates/$crate/$part" ]; then cp -r "$top/crates/$crate/$part" "$work/crates/$crate/$part"; fi
    done
done
mkdir "$work/crates/dex_list/data"
grep -E '^(vet_base|app_machine|dalvik_formats|dex_tables|dex_bodies|dex_reader|dex_code|dex_list):' "$top/crates.txt" > "$work/crates.txt"
number=0
for file in "$@"; do
    number=$((number + 1))
    cp "$file" "$work/crates/dex_list/data/given$number.dex"
done
for seed in 1 2 3 4 5 6 7 8 9 10; do
    python3 "$top/bench/instructions/every_opcode.py" "$top/crates/dalvik_formats/src/opcodes.rt" $seed "$work/crates/dex_list/data"
done
cd "$work/crates/dex_list"
rt try -- code data/*.dex > "$work/ours.txt"
python3 "$top/bench/instructions/compare.py" "$work/ours.txt" "$top/crates/dalvik_formats/src/opcodes.rt" data/*.dex
