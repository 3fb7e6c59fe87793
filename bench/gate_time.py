#!/usr/bin/env python3
"""Processor time of the merge gate, by phase and by crate, so that whoever makes it slow sees it.

    bench/gate_time.py rt ci            runs the command and tells, when it has ended, where its time went
    bench/gate_time.py --of PID         watches a gate that is running, from now on
    bench/gate_time.py .. --every 60    tells besides every 60 seconds

Once a second it looks at the processes below the gate's own and adds up what each took of the processors, so the last
second of a process may be lost. What a gate keeps from earlier runs takes no time and is not in the table: for the
figures from nothing nothing may be kept on the machine. The phases:

    proof     a library's or program's own proof          compile  a proved program, by each of the two compilers
    tests     a crate's second proof, with its tests      seed     the proof with which a crate's edits begin, and its repetition
    edits     must-fail edits                             run      programs and tests as they run
    other     what the gate itself does
"""
import argparse
import collections
import os
import re
import subprocess
import sys
import time

TICKS = os.sysconf("SC_CLK_TCK")
PHASES = ["proof", "tests", "compile", "seed", "edits", "run", "other"]


def words_of(pid):
    try:
        with open(f"/proc/{pid}/cmdline", "rb") as file:
            return file.read().decode(errors="replace").split("\0")[:-1]
    except OSError:
        return []


def stat_of(pid):
    """The parent, the time at which the process began, and its processor ticks, with those of children that have ended."""
    try:
        with open(f"/proc/{pid}/stat") as file:
            fields = file.read().rsplit(")", 1)[1].split()
    except OSError:
        return None
    return int(fields[1]), int(fields[19]), int(fields[11]) + int(fields[12])


def what_of(words):
    """The phase and the crate of a process, by its command line; None where it tells none of its own."""
    if not words:
        return None
    program = os.path.basename(words[0])
    if program == "rattle" and "--crate-name" in words:
        crate = words[words.index("--crate-name") + 1]
        kept = words[words.index("--incremental") + 1] if "--incremental" in words else ""
        if "rt-edits-" in kept:
            return ("seed" if kept.endswith("/seed") else "edits"), crate
        if "--crate-checked" in words:
            return "compile", crate
        if "--test" in words:
            return "tests", crate
        is_whole = words[1] == "build" or "-o" in words
        return ("proof" if is_whole else "edits"), crate
    at = re.search(r"/rt-run-[^/]*/bin/([^/]+)$", words[0]) or next(filter(None, (re.search(r"/rt-run-[^/]*/bin/([^/]+)$", it) for it in words)), None)
    return ("run", re.sub(r"_tests$", "", at[1])) if at else None


def below(top):
    """This process and those below it, each with its parent's kind where it has none of its own."""
    children = collections.defaultdict(list)
    for name in filter(str.isdigit, os.listdir("/proc")):
        found = stat_of(name)
        if found:
            children[found[0]].append((int(name), *found[1:]))
    left, own = [(top, ("other", "rt"))], stat_of(top)
    if own:
        yield top, *own[1:], ("other", "rt")
    while left:
        parent, kind = left.pop()
        for pid, began, ticks in children[parent]:
            own = what_of(words_of(pid)) or kind
            left.append((pid, own))
            yield pid, began, ticks, own


def told(spent, begun):
    by_phase, by_crate = collections.Counter(), collections.defaultdict(collections.Counter)
    for (_, _), (ticks, (phase, crate)) in spent.items():
        by_phase[phase] += ticks / TICKS
        by_crate[crate][phase] += ticks / TICKS
    whole = sum(by_phase.values())
    print(f"\n{time.time() - begun:.0f} s by the clock, {whole:.0f} s of processors ({whole / 60:.0f} minutes)")
    print("".join(f"{it:>9}" for it in ["all", *PHASES]) + "  crate")
    row = lambda counted, name: print(f"{sum(counted.values()):9.0f}" + "".join(f"{counted[it]:9.0f}" for it in PHASES) + f"  {name}")
    row(by_phase, "all crates")
    for crate, counted in sorted(by_crate.items(), key=lambda it: -sum(it[1].values())):
        row(counted, crate)
    sys.stdout.flush()


def main():
    asked = argparse.ArgumentParser(description="processor time of a gate, by phase and crate")
    asked.add_argument("--of", type=int, metavar="PID", help="watch a process that is running")
    asked.add_argument("--every", type=int, default=0, metavar="SECONDS", help="tell in between too")
    asked.add_argument("command", nargs=argparse.REMAINDER, help="the command to run, as rt ci")
    given = asked.parse_args()
    if bool(given.of) == bool(given.command):
        asked.error("give either a command or --of PID")
    run = subprocess.Popen(given.command) if given.command else None
    top, begun, spent, last = run.pid if run else given.of, time.time(), {}, time.time()
    try:
        while (run.poll() is None) if run else os.path.exists(f"/proc/{top}"):
            for pid, began, ticks, kind in below(top):
                before = spent.get((pid, began))
                # a process that has started another program keeps what it told first, unless it told nothing
                spent[pid, began] = ticks, kind if before is None or before[1][0] == "other" else before[1]
            if given.every and time.time() - last >= given.every:
                last = time.time()
                told(spent, begun)
            time.sleep(1)
    except KeyboardInterrupt:
        pass
    told(spent, begun)
    return run.returncode if run else 0


if __name__ == "__main__":
    sys.exit(main())
