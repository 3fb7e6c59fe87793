"""Times a program on apps of growing size, for the scripts beside it."""
import os
import subprocess
import time


def time_check(program, sized):
    """Prints for each (title, folder, file) the file's size, the least time of five runs of `check` on the folder, the ratio to
    the time before, and the line that the program printed."""
    before = None
    for title, folder, file in sized:
        times = []
        for _ in range(5):
            start = time.perf_counter()
            ran = subprocess.run([program, 'check', folder, '1'], capture_output=True)
            times.append(time.perf_counter() - start)
        least = min(times)
        ratio = '' if before is None else f' x{least / before:.2f}'
        before = least
        size = os.path.getsize(f'{folder}/{file}')
        print(f'{title}, {size} bytes: {least * 1000:.1f} ms{ratio}  {ran.stdout.decode().strip()}')
