#!/usr/bin/env python3
"""Writes a script of N writes of guest memory to standard output, each of eight bytes, to 16 pages in turn.

The phases have one thread each, of at most 65,536 calls. With `track` the machine has a second memory, and a last phase
copies the pages that were written.

usage: make_pokes.py N [track]
"""

import sys

MOST_CALLS = 65536
FIRST = 0x80100000
WORDS = 8192

DESCRIPTION = """\
vcpus 1
shards 16
window 0x80000000 0x200000
config 0x80030000
pending 0 0x80040000
"""


def phase(first, count):
    """A phase whose one thread makes the writes from number `first` on."""
    lines = [f"poke {FIRST + 8 * (n % WORDS):#x} {n.to_bytes(8, 'little').hex()}\n" for n in range(first, first + count)]
    return "phase\nthread\n" + "".join(lines)


def script(pokes, track):
    phases = [phase(first, min(MOST_CALLS, pokes - first)) for first in range(0, pokes, MOST_CALLS)]
    described, copied = ("track\n", "phase\nthread\ncopy\n") if track else ("", "")
    return DESCRIPTION + described + "".join(phases) + copied + "end\n"


def main():
    if len(sys.argv) not in (2, 3) or not sys.argv[1].isdecimal() or sys.argv[2:] not in ([], ["track"]):
        raise SystemExit(__doc__)
    sys.stdout.write(script(int(sys.argv[1]), len(sys.argv) == 3))


if __name__ == "__main__":
    main()
