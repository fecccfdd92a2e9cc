#!/usr/bin/env python3
"""Writes a script of at most N bytes to standard output, of many kinds of lines.

The first phase maps one device with 16 events. Each phase after it has one thread, which goes through the same mix of
lines again and again: signals, acknowledgements, reads and writes of registers and of memory, commands with a step each,
a comment and a blank line.

usage: make_mixed.py BYTES
"""

import sys

from make_signals import COMMAND_BYTES, DESCRIPTION, DEVICE, EVENTS, MOST_BYTES, MOST_CALLS, MOST_PHASES, QUEUE, setup

# The queue has room for this many commands, and the first phase took some of them.
QUEUE_COMMANDS = 128


class Mix:
    """The lines of the phases, with the place in the command queue that comes next."""

    def __init__(self):
        self.command = 2 + EVENTS
        self.round = 0

    def command_lines(self, command):
        """A command in the queue, and the step that takes it: three calls."""
        place = QUEUE + COMMAND_BYTES * self.command
        self.command = (self.command + 1) % QUEUE_COMMANDS
        return [f"command {place:#x} {command}", f"write 0x88 8 {COMMAND_BYTES * self.command:#x}", "step"]

    def lines(self):
        """One round: 15 calls, a comment and a blank line."""
        event = self.round % EVENTS
        self.round += 1
        lines = [f"# round {self.round}", ""]
        lines += [f"signal {DEVICE} {event}", f"  signal  {DEVICE:#x}   {event:#06x}", "show 0", "take 0", "take 0"]
        lines += ["read 0x88 8", "read 0x100 4", "write 0x104 4 0", f"poke 0x80100000 {'5a' * 32}", "peek 0x80100000 64"]
        lines += ["word 0x80100040 0x0123456789abcdef", "peek 0x801fffff 2"]
        lines += self.command_lines(f"int {DEVICE} {event}")
        return lines


MIX_CALLS = 15

# The configuration bytes of the events' LPIs.
ENABLED = f"bytes 0x80030000 {'a1' * EVENTS}\n"


def script(most):
    mix = Mix()
    text = [DESCRIPTION + ENABLED, setup()]
    size = len(text[0]) + len(text[1]) + len("end\n")
    for _ in range(1, MOST_PHASES):
        opened = "phase\nthread\n"
        body = []
        filled = size + len(opened)
        for _ in range(MOST_CALLS // MIX_CALLS):
            lines = "\n".join(mix.lines()) + "\n"
            if filled + len(lines) > most:
                break
            body.append(lines)
            filled += len(lines)
        if not body:
            break
        text += [opened, *body]
        size = filled
    return "".join(text) + "end\n"


def main():
    if len(sys.argv) != 2 or not sys.argv[1].isdecimal() or int(sys.argv[1]) > MOST_BYTES:
        raise SystemExit(__doc__)
    sys.stdout.write(script(int(sys.argv[1])))


if __name__ == "__main__":
    main()
