#!/usr/bin/env python3
"""Refuses each request for memory of `its run` in turn.

Runs a script again and again, and has the first, the second, .. request for memory fail, until a run asks for no more.
Each run must end as a whole one does, with the same report (where the request served only to start a thread), or with
status 5: the reports of the legs that were migrated, and the line `refused memory`. What was printed of reports is never
less than where an earlier request was refused.

Needs gcc for a library that the loader puts in front of the C library's.

usage: refused_memory.py PROGRAM SCRIPT..
"""

import os
import subprocess
import sys
import tempfile

SHIM = """
#define _GNU_SOURCE
#include <dlfcn.h>
#include <errno.h>
#include <stdatomic.h>
#include <stdlib.h>

static atomic_long asked;

static int is_refused(void) {
    const char *which = getenv("REFUSED");
    return which && atomic_fetch_add(&asked, 1) + 1 == atol(which);
}

#define REFUSE do { if (is_refused()) { errno = ENOMEM; return NULL; } } while (0)

void *malloc(size_t size) {
    static void *(*real)(size_t);
    if (!real) real = dlsym(RTLD_NEXT, "malloc");
    REFUSE;
    return real(size);
}

void *realloc(void *old, size_t size) {
    static void *(*real)(void *, size_t);
    if (!real) real = dlsym(RTLD_NEXT, "realloc");
    REFUSE;
    return real(old, size);
}

void *aligned_alloc(size_t alignment, size_t size) {
    static void *(*real)(size_t, size_t);
    if (!real) real = dlsym(RTLD_NEXT, "aligned_alloc");
    REFUSE;
    return real(alignment, size);
}
"""


def built(folder):
    source, library = os.path.join(folder, "shim.c"), os.path.join(folder, "shim.so")
    with open(source, "w", encoding="utf-8") as file:
        file.write(SHIM)
    subprocess.run(["gcc", "-shared", "-fPIC", "-O2", "-o", library, source, "-ldl"], check=True)
    return library


def run(program, script, library, refused):
    env = dict(os.environ, LD_PRELOAD=library)
    if refused:
        env["REFUSED"] = str(refused)
    done = subprocess.run([program, "run"], input=script, capture_output=True, env=env, check=False)
    return done.returncode, done.stdout.decode()


def entries(report):
    """A report without who came when: threads may come in another order."""
    return sorted(line.split(" ", 1)[-1] for line in report.splitlines())


def front_of(report, whole):
    """The legs before the line `refused memory`, or None where this is no report that was cut so."""
    front, line = report[: -len("refused memory\n")], report[-len("refused memory\n") :]
    migrated = front == "" or front.splitlines()[-1].startswith("migrated")
    is_cut = line == "refused memory\n" and migrated and entries(front) == entries(whole[: len(front)])
    return front if is_cut else None


def check(program, path, library):
    with open(path, "rb") as file:
        script = file.read()
    status, whole = run(program, script, library, 0)
    if status not in (0, 1, 6, 7, 8):
        sys.exit(f"{path}: status {status}")
    out_of_memory = same = number = printed = 0
    while same < 200:
        number += 1
        ended, report = run(program, script, library, number)
        front = front_of(report, whole) if ended == 5 else None
        if front is not None and len(front) >= printed:
            out_of_memory, same, printed = out_of_memory + 1, 0, len(front)
        elif ended == status and entries(report) == entries(whole):
            same += 1
        else:
            sys.exit(f"{path}: request {number} refused: status {ended}, {report[-200:]!r}")
    print(f"{path}: {out_of_memory} refused requests ended with status 5, the last is {number - same}")


def main():
    with tempfile.TemporaryDirectory() as folder:
        library = built(folder)
        for path in sys.argv[2:]:
            check(sys.argv[1], path, library)


main()
