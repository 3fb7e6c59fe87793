"""Refuses one request for memory in a run, each request in turn, and says what came of it.

usage: refused_memory.py VET check FOLDER WORKERS [STEP]
       refused_memory.py VET certify FOLDER [STEP]
       refused_memory.py VET day [STEP]
(the program that `./vet --prove` built; the folder of an app; how many workers; every how manieth request is refused, each where
none is said)

A library in C that stands before the C library answers the Nth request by no memory, of whichever thread; so a C compiler must be
there. It ends with the first N that no run comes to. `certify` certifies, and then rechecks what a whole run wrote. `day` is the day of
an office that tools/tests/office_day.py tells, at a desk of the program: what is asked in vain is asked again, and a desk that ended
for want of memory is started again.

Prints how many runs with one request refused ended as a whole run does, how many with want of memory (status 7, nothing printed and
no certificate; at the desk 503, 507 or nothing in place of a reply, or that status), and each other end. Its status is 0 only where there is no
other end.
"""
import contextlib
import http.client
import json
import os
import pathlib
import subprocess
import sys
import tempfile

sys.path.insert(0, str(pathlib.Path(__file__).resolve().parents[1] / 'tools'))
from tests import desk_at_work, office_day

SOURCE = r'''
#include <errno.h>
#include <fcntl.h>
#include <stdatomic.h>
#include <stddef.h>
#include <stdlib.h>
#include <unistd.h>

extern void *__libc_malloc(size_t);
extern void *__libc_calloc(size_t, size_t);
extern void *__libc_realloc(void *, size_t);
extern void *__libc_memalign(size_t, size_t);

static atomic_long requests;
static long refused_one;
static const char *told;

__attribute__((constructor)) static void begin(void) {
    const char *number = getenv("REFUSED_REQUEST");
    told = getenv("REFUSED_FILE");
    refused_one = number ? atol(number) : 0;
    atomic_store(&requests, 0);
}

static int is_refused(void) {
    if (atomic_fetch_add(&requests, 1) + 1 != refused_one)
        return 0;
    close(open(told, O_WRONLY | O_CREAT, 0600));
    errno = ENOMEM;
    return 1;
}

void *malloc(size_t size) {
    return is_refused() ? NULL : __libc_malloc(size);
}

void *calloc(size_t count, size_t size) {
    return is_refused() ? NULL : __libc_calloc(count, size);
}

void *realloc(void *old, size_t size) {
    return is_refused() ? NULL : __libc_realloc(old, size);
}

void *aligned_alloc(size_t alignment, size_t size) {
    return is_refused() ? NULL : __libc_memalign(alignment, size);
}

int posix_memalign(void **place, size_t alignment, size_t size) {
    void *made = is_refused() ? NULL : __libc_memalign(alignment, size);
    if (!made)
        return ENOMEM;
    *place = made;
    return 0;
}
'''


class Refusing:
    """What answers one request for memory of a run by none."""

    def __init__(self, room):
        self.library, self.told = f'{room}/refusing.so', f'{room}/refused'
        subprocess.run(['gcc', '-O2', '-shared', '-fPIC', '-x', 'c', '-', '-o', self.library], input=SOURCE.encode(), check=True)

    def names(self, number):
        """The environment of a run whose request of this number is refused."""
        return {**os.environ, 'LD_PRELOAD': self.library, 'REFUSED_REQUEST': str(number), 'REFUSED_FILE': self.told}

    def has_come(self):
        """Whether the run came to the request."""
        came = os.path.exists(self.told)
        if came:
            os.remove(self.told)
        return came


def ended(refusing, number, words, written=None):
    """How a run ended: its status, what it printed, and what it wrote to this file, None where there is none."""
    if written:
        pathlib.Path(written).unlink(missing_ok=True)
    ran = subprocess.run(words, env=refusing.names(number), capture_output=True, timeout=60)
    there = written and os.path.exists(written)
    return ran.returncode, ran.stdout, pathlib.Path(written).read_bytes() if there else None


def of_words(refusing, words, written=None):
    """For each number of a request whether a run of these words came to it, and how it ended."""
    whole = ended(refusing, 0, words, written)
    print(f'{words[1]}: status {whole[0]}')

    def run(number):
        found = ended(refusing, number, words, written)
        kind = 'whole' if found == whole else 'wanting' if found == (7, b'', None) else f'status {found[0]}, {found[1][:200]}'
        return refusing.has_come(), kind

    return run


class Desk(desk_at_work.DeskAtWork):
    """A desk whose first process has one request for memory refused."""

    def __init__(self, program, refusing, number):
        self.program, self.names = program, refusing.names(number)
        try:
            super().__init__()
        except AssertionError:
            self.end()
            raise

    def begin(self):
        """Starts the desk, and once more where the first process ended for want of memory before it listened."""
        self.start(self.names)
        with contextlib.suppress(AssertionError):
            desk_at_work.wait_for_port(self.port, self._process)
            return
        self.again()

    def start(self, names):
        self._process = subprocess.Popen([self.program, 'serve', str(self.office), '9999'], env=names, stdout=subprocess.DEVNULL)

    def again(self):
        """Starts the desk again, which ended with 7."""
        if (status := self._process.wait(60)) != 7:
            raise AssertionError(f'the desk ended with {status}')
        self.start(dict(os.environ))
        desk_at_work.wait_for_port(self.port, self._process)

    def has_ended(self):
        """Whether the desk has ended, or does within a second."""
        with contextlib.suppress(subprocess.TimeoutExpired):
            self._process.wait(1)
        return self._process.poll() is not None


def is_due(asked, reply):
    status, kind, body = reply
    told = json.loads(body) if kind == 'application/json' else body.decode()
    return status == asked.status and (asked.due is None or told == asked.due)


def gone_through(desk):
    """How the day went: `whole`, `wanting`, or what was otherwise.

    Where nothing was replied, the command may have been carried out: asked again, the desk may say that it was.
    """
    kind = 'whole'
    for asked in office_day.day():
        was_silent = False
        for _ in range(2):
            try:
                reply = desk.ask(asked.who, asked.method, asked.path, asked.body)
            except (OSError, http.client.HTTPException):
                if desk.has_ended():
                    desk.again()
                kind, was_silent = 'wanting', asked.method == 'POST'
                continue
            if is_due(asked, reply) or was_silent and reply[0] in (200, 409):
                break
            if reply[0] not in (503, 507):
                return f'{asked.method} {asked.path}: {reply}'
            kind = 'wanting'
        else:
            return f'{asked.method} {asked.path}: in vain'
    return kind


def of_day(program, refusing):
    """For each number of a request whether the desk came to it, and how the day went."""
    def run(number):
        desk = None
        try:
            desk = Desk(program, refusing, number)
            kind = gone_through(desk)
        except AssertionError as fault:
            kind = str(fault)
        finally:
            if desk:
                desk.end()
        return refusing.has_come(), kind

    return run


def each_in_turn(run, step):
    """Refuses one request after the other; gives whether no end was otherwise."""
    counts = {'whole': 0, 'wanting': 0}
    number, others = 1, 0
    while True:
        came, kind = run(number)
        if not came:
            break
        if kind in counts:
            counts[kind] += 1
        else:
            others += 1
            print(f'request {number}: {kind}')
        number += step
    print(f"{counts['whole']} runs ended as a whole one, {counts['wanting']} with want of memory, {others} otherwise")
    return others == 0


def main(program, what, *words):
    told = {'check': 2, 'certify': 1, 'day': 0}[what]
    step = int(words[told]) if len(words) > told else 1
    with tempfile.TemporaryDirectory() as room:
        refusing = Refusing(room)
        if what == 'check':
            runs = [of_words(refusing, [program, 'check', *words[:2]])]
        elif what == 'certify':
            written, kept = f'{room}/written', f'{room}/kept'
            pathlib.Path(kept).write_bytes(ended(refusing, 0, [program, 'certify', words[0], written], written)[2])
            runs = [of_words(refusing, [program, 'certify', words[0], written], written),
                    of_words(refusing, [program, 'recheck', words[0], kept])]
        else:
            runs = [of_day(program, refusing)]
        return 0 if all([each_in_turn(run, step) for run in runs]) else 1


if __name__ == '__main__':
    sys.exit(main(*sys.argv[1:]))
