#!/usr/bin/env python3
"""How long each part of a crate's proof took, the dearest first, so that whoever makes a proof slow sees which part it is.

    rm -rf crates/verdict/out; (cd crates/verdict && rt check --jobs 1)
    bench/proof_parts.py crates/verdict          what that check took for each part
    bench/proof_parts.py crates/verdict --most 5 the five dearest alone

A check keeps each part that it has gone through as a file (`rattle check --incremental`), so what a part took is the time
between its file and the one before. Seconds by the clock, of one job; with two jobs they mean little. A part's name says what
it is: `judging.judged_parts.Lts` is the borrow checker's part of the proof of `judged_parts`, `.Proof` the goals, a name of
`proofs/` its lemmas, and what stands before the first part is not told.
"""
import argparse
import os
import sys


def parts_in(folder):
    """The names of the parts below the folder with the time at which each was written, the first first."""
    found = []
    for path, _, names in os.walk(folder):
        for name in names:
            if name.endswith(".oantt") and os.path.basename(path) != "records":
                found.append((os.stat(os.path.join(path, name)).st_mtime, name[: -len(".oantt")]))
    return sorted(found)


def main():
    asked = argparse.ArgumentParser(description=__doc__, formatter_class=argparse.RawDescriptionHelpFormatter)
    asked.add_argument("crate", help="the folder of a crate, as crates/verdict")
    asked.add_argument("--most", type=int, default=25, help="how many parts are told (25)")
    asked = asked.parse_args()
    kept = os.path.join(asked.crate, "out", "incremental")
    parts = parts_in(kept)
    if not parts:
        sys.exit(f"{kept} has no parts of a check: run rt check --jobs 1 in {asked.crate}")
    took = [(later - before, name) for (before, _), (later, name) in zip(parts, parts[1:])]
    for seconds, name in sorted(took, reverse=True)[: asked.most]:
        print(f"{seconds:8.1f} {name}")


if __name__ == "__main__":
    main()
