"""Runs a program once and tells what that took, as one line of JSON.

usage: measured.py SECONDS OUT WORD .. (the limit by the clock, the file for what the program prints, and its words)

The line has `status` (null where the program was stopped at the limit), `clock` and `spent` (in seconds, the latter of
the processors) and `peak` (in KB). It is a program of its own since the peak of what is started begins with the peak
of what starts it, and this one is small.
"""
import json
import os
import signal
import subprocess
import sys
import time


def main():
    limit, out, words = float(sys.argv[1]), sys.argv[2], sys.argv[3:]
    begun = time.monotonic()
    with open(out, 'wb') as file:
        child = subprocess.Popen(words, stdin=subprocess.DEVNULL, stdout=file, stderr=subprocess.DEVNULL,
                                 process_group=0)
    done, stopped = 0, False
    while not done:
        done, status, used = os.wait4(child.pid, os.WNOHANG)
        if not done and not stopped and time.monotonic() - begun > limit:
            os.killpg(child.pid, signal.SIGKILL)
            stopped = True
        if not done:
            time.sleep(0.01)
    child.returncode = os.waitstatus_to_exitcode(status)
    print(json.dumps({'status': None if stopped else child.returncode, 'clock': time.monotonic() - begun,
                      'spent': used.ru_utime + used.ru_stime, 'peak': used.ru_maxrss}))


main()
