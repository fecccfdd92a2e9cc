#!/usr/bin/env python3
"""Refuses each request for memory of a save that is made beside signals, in turn.

Runs `its_bench stress 1000 stress-saving` again and again, and has the first, the second, .. request for memory fail,
until a run asks for no more. There two threads signal while a third saves once. A save that isn't made is made again,
and then every reply is compared with that of the machine of one caller, to which the save that wasn't made is unknown:
the signals, what all tables have in guest memory, and what is pending. So a run whose save was refused must

- say that a call was made again, and that every reply is as replayed, at as many places as in a whole run;
- have as many blocks of 65,536 bytes, guest memory's pages, when it asks for memory again as when the threads were started.

Any other run ends as a whole one does (the request served only to start a thread), or with no reply at all.

Needs gcc for a library that the loader puts in front of the C library's.

usage: refused_saves.py ITS_BENCH
"""

import os
import re
import subprocess
import sys
import tempfile

SHIM = """
#define _GNU_SOURCE
#include <dlfcn.h>
#include <errno.h>
#include <malloc.h>
#include <pthread.h>
#include <stdatomic.h>
#include <stdio.h>
#include <stdlib.h>
#include <unistd.h>

static atomic_long asked, pages;
/* How many pages there are when threads are started, and when the thread that was refused asks again. */
static atomic_long before = -1, after = -1;
static _Thread_local int was_refused;

static void count(void *block, long one) {
    size_t size = block ? malloc_usable_size(block) : 0;
    if (size >= 65536 && size < 65536 + 64) atomic_fetch_add(&pages, one);
}

static int is_refused(void) {
    const char *which = getenv("REFUSED");
    if (was_refused) {
        was_refused = 0;
        atomic_store(&after, atomic_load(&pages));
    }
    if (!which || atomic_fetch_add(&asked, 1) + 1 != atol(which)) return 0;
    was_refused = atomic_load(&before) >= 0;
    return 1;
}

#define REAL(name) static __typeof__(name) *real; if (!real) real = (__typeof__(real))dlsym(RTLD_NEXT, #name)
#define REFUSE do { if (is_refused()) { errno = ENOMEM; return NULL; } } while (0)

void *malloc(size_t size) {
    REAL(malloc);
    REFUSE;
    void *block = real(size);
    count(block, 1);
    return block;
}

void *realloc(void *old, size_t size) {
    REAL(realloc);
    REFUSE;
    count(old, -1);
    void *block = real(old, size);
    count(block ? block : old, 1);
    return block;
}

void *aligned_alloc(size_t alignment, size_t size) {
    REAL(aligned_alloc);
    REFUSE;
    void *block = real(alignment, size);
    count(block, 1);
    return block;
}

void free(void *block) {
    REAL(free);
    count(block, -1);
    real(block);
}

int pthread_create(pthread_t *thread, const pthread_attr_t *attr, void *(*start)(void *), void *given) {
    REAL(pthread_create);
    atomic_store(&before, atomic_load(&pages));
    return real(thread, attr, start, given);
}

void _exit(int status) {
    REAL(_exit);
    fprintf(stderr, "pages %ld %ld\\n", atomic_load(&before), atomic_load(&after));
    real(status);
    __builtin_unreachable();
}
"""

# So many requests one after another serve only to start threads, or aren't made at all.
MOST_THAT_CHANGE_NOTHING = 80

SAID = re.compile(r"stress-saving: checked (\d+) places, hits \d+(, made again 1)?\n\Z")


def built(folder):
    source, library = os.path.join(folder, "shim.c"), os.path.join(folder, "shim.so")
    with open(source, "w", encoding="utf-8") as file:
        file.write(SHIM)
    subprocess.run(["gcc", "-shared", "-fPIC", "-O2", "-o", library, source, "-ldl"], check=True)
    return library


def run(program, library, refused):
    """The status, what was printed, and how many pages there were before and after the refusal."""
    env = dict(os.environ, LD_PRELOAD=library, REFUSED=str(refused))
    done = subprocess.run([program, "stress", "1000", "stress-saving"], capture_output=True, env=env, check=False)
    pages = re.search(rb"^pages (-?\d+) (-?\d+)\n", done.stderr, re.M)
    if not pages:
        sys.exit(f"request {refused} refused: status {done.returncode}, {done.stderr[-200:]!r}")
    return done.returncode, done.stdout.decode(), int(pages[1]), int(pages[2])


def main():
    if len(sys.argv) != 2:
        sys.exit(__doc__)
    program = os.path.realpath(sys.argv[1])
    with tempfile.TemporaryDirectory() as folder:
        library = built(folder)
        status, printed, *_ = run(program, library, 0)
        whole = SAID.match(printed)
        if status != 0 or not whole or whole[2]:
            sys.exit(f"status {status}, {printed!r}")
        number = same = saves = unmade = 0
        while same < MOST_THAT_CHANGE_NOTHING:
            number += 1
            status, printed, before, after = run(program, library, number)
            said = SAID.match(printed)
            if said and said[2] and status == 0 and said[1] == whole[1] and 0 <= before == after:
                saves, same = saves + 1, 0
            elif said and not said[2] and status == 0 and said[1] == whole[1]:
                same += 1
            elif not printed and status != 0:
                unmade, same = unmade + 1, 0
            else:
                sys.exit(f"request {number} refused: status {status}, {printed[-200:]!r}, pages {before} and then {after}")
    print(f"{number - same} requests: {saves} of the save, after each of which it was made again, and {unmade} of all else")
    if saves == 0:
        sys.exit("none was a save's")


main()
