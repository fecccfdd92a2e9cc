#!/usr/bin/env python3
"""Writes a script to standard output that maps COUNT devices, or COUNT events of one device, in an order.

`rising` maps them from the lowest number on, `falling` from the highest, `scattered` in a fixed order without a pattern.
A phase writes commands into the queue and takes a step for each.

usage: make_maps.py devices|events rising|falling|scattered COUNT
"""

import random
import sys

from make_signals import COMMAND_BYTES, DESCRIPTION, MOST_CALLS

MOST = 65536
LPIS = 65536 - 8192

DEVICES = 0x80100000
QUEUE = 0x80200000
ITTS = 0x81000000

# A flat device table of 8 pages of 64 KiB, and a queue of 16 pages of 4 KiB.
REGISTERS = f"""\
write 0x100 8 {0x8107000000000207 | DEVICES:#x}
write 0x108 8 0x8407000080010200
write 0x80 8 {0x800000000000000f | QUEUE:#x}
write 0x0 4 1
"""
QUEUE_PLACES = 16 * 4096 // COMMAND_BYTES

# A phase fills the queue but for one place, with a poke and a step for each command, and one write of GITS_CWRITER.
BATCH = QUEUE_PLACES - 1
assert 2 * BATCH + 1 <= MOST_CALLS

FIRST = {"devices": [], "events": [f"mapd 0 16 {ITTS:#x}", "mapc 0 0"]}


def command(kind, number):
    if kind == "devices":
        return f"mapd {number} 1 {ITTS + 256 * number:#x}"
    return f"mapti 0 {number} {8192 + number % LPIS} 0"


def ordered(order, count):
    numbers = list(range(count))
    if order == "falling":
        numbers.reverse()
    if order == "scattered":
        random.Random(1).shuffle(numbers)
    return numbers


def phase(commands, place):
    """A phase that runs some commands, the first of them at a place of the queue."""
    lines = ["phase", "thread"]
    for each in commands:
        lines.append(f"command {QUEUE + COMMAND_BYTES * place:#x} {each}")
        place = (place + 1) % QUEUE_PLACES
    lines.append(f"write 0x88 8 {COMMAND_BYTES * place:#x}")
    lines += ["step"] * len(commands)
    return "\n".join(lines) + "\n", place


def script(kind, order, count):
    yield DESCRIPTION.replace("0x200000", "0x1000000")
    yield "phase\nthread\n" + REGISTERS
    commands = FIRST[kind] + [command(kind, number) for number in ordered(order, count)]
    place = 0
    for first in range(0, len(commands), BATCH):
        text, place = phase(commands[first : first + BATCH], place)
        yield text
    yield "end\n"


def main():
    if len(sys.argv) != 4 or sys.argv[1] not in FIRST or not sys.argv[3].isdecimal():
        raise SystemExit(__doc__)
    kind, order, count = sys.argv[1], sys.argv[2], int(sys.argv[3])
    if order not in ("rising", "falling", "scattered") or not 1 <= count <= MOST:
        raise SystemExit(__doc__)
    for text in script(kind, order, count):
        sys.stdout.write(text)


if __name__ == "__main__":
    main()
