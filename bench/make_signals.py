#!/usr/bin/env python3
"""Writes a script of N signals to standard output.

The first phase maps one device with 16 events, each to an LPI of its own. The phases after it have one thread each, of at
most 65,536 signals, which go through the events in turn. A script is at most 16 MiB long and has at most 256 phases.

usage: make_signals.py N
"""

import sys

MOST_BYTES = 16 * 1024 * 1024
MOST_PHASES = 256
MOST_CALLS = 65536

DEVICE = 7
EVENTS = 16

DESCRIPTION = """\
vcpus 1
shards 16
window 0x80000000 0x200000
config 0x80030000
pending 0 0x80040000
"""

REGISTERS = """\
phase
thread
write 0x100 8 0x8107000080000200
write 0x108 8 0x8407000080010200
write 0x80 8 0x8000000080020000
write 0x0 4 1
"""

QUEUE = 0x80020000
COMMAND_BYTES = 32


def setup():
    """The first phase: registers, commands, and a step for each command."""
    commands = [f"mapd {DEVICE} 4 0x800c0000", "mapc 0 0"]
    commands += [f"mapti {DEVICE} {event} {8192 + event} 0" for event in range(EVENTS)]
    lines = [
        f"command {QUEUE + COMMAND_BYTES * place:#x} {command}\n"
        for place, command in enumerate(commands)
    ]
    lines.append(f"write 0x88 8 {COMMAND_BYTES * len(commands):#x}\n")
    lines += ["step\n"] * len(commands)
    return REGISTERS + "".join(lines)


def phase(first, count):
    """A phase whose one thread makes the signals from number `first` on."""
    lines = [f"signal {DEVICE} {number % EVENTS}\n" for number in range(first, first + count)]
    return "phase\nthread\n" + "".join(lines)


def script(signals):
    phases = [
        phase(first, min(MOST_CALLS, signals - first)) for first in range(0, signals, MOST_CALLS)
    ]
    if 1 + len(phases) > MOST_PHASES:
        raise SystemExit(f"{signals} signals need more than {MOST_PHASES} phases")
    text = DESCRIPTION + setup() + "".join(phases) + "end\n"
    if len(text) > MOST_BYTES:
        raise SystemExit(f"{signals} signals need more than {MOST_BYTES} bytes")
    return text


def main():
    if len(sys.argv) != 2 or not sys.argv[1].isdecimal():
        raise SystemExit(__doc__)
    sys.stdout.write(script(int(sys.argv[1])))


if __name__ == "__main__":
    main()
