#!/usr/bin/env python3
"""Writes a script of four threads of N signals each to standard output, N at most 65,536.

The first phase maps device 16 with one event, in one thread. The threads of the second signal that event.

usage: make_threads.py N
"""

import sys

THREADS = 4
MOST_CALLS = 65536

BEGINNING = """\
vcpus 4
shards 4
window 0x80000000 0x200000
config 0x80030000
pending 0 0x80040000
pending 1 0x80050000
pending 2 0x80060000
pending 3 0x80070000
bytes 0x80030008 a1
phase
thread
write 0x100 8 0x8107000080000200
write 0x108 8 0x8407000080010200
write 0x80 8 0x8000000080020000
write 0x0 4 1
command 0x80020000 mapd 0x10 5 0x800c0000
command 0x80020020 mapc 1 2
command 0x80020040 mapti 0x10 3 8200 1
write 0x88 8 0x60
step
step
step
phase
"""


def main():
    if len(sys.argv) != 2 or not sys.argv[1].isdigit() or int(sys.argv[1]) > MOST_CALLS:
        sys.exit(__doc__.splitlines()[-1])
    signals = int(sys.argv[1])
    sys.stdout.write(BEGINNING)
    for _ in range(THREADS):
        sys.stdout.write("thread\n" + "signal 0x10 3\n" * signals)
    sys.stdout.write("end\n")


main()
