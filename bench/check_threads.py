#!/usr/bin/env python3
"""Checks a run of many threads against runs of one.

Makes a script in which threads signal while another thread rewrites the maps, runs it, and puts the calls of the report
into a script of one thread, in the order of their places. The replies of both runs must be the same, line by line, and
so must be what is pending at the end.

With --linux the guest programs the LPI registers of its redistributors, and turns the LPIs of one processor off and on
after each command, so that signals of the cache find it on or off.

usage: check_threads.py PROGRAM [SEED [ROUNDS]] [--linux]
"""

import random
import subprocess
import sys

QUEUE = 0x80020000
PLACES = 128
EVENTS = 8
SIGNALS = 25000
SIGNALLERS = 4
COMMANDS = 1500

DESCRIPTION = """\
vcpus 4
shards 4
limits 40 1099511627775
window 0x80000000 0x200000
"""

DESCRIBED = """\
config 0x80030000
pending 0 0x80040000
pending 1 0x80050000
pending 2 0x80060000
pending 3 0x80070000
"""

PROGRAMMED = """\
gicr
linux
"""

REGISTERS = [
    "write 0x100 8 0x8107000080000200",
    "write 0x108 8 0x8407000080010200",
    "write 0x80 8 0x8000000080020000",
    "write 0x0 4 0x1",
]


class Queue:
    """The guest's side of the command queue."""

    def __init__(self):
        self.next = 0

    def run(self, command):
        place = QUEUE + 32 * self.next
        self.next = (self.next + 1) % PLACES
        return [f"command {place} {command}", f"write 0x88 8 {32 * self.next}", "step"]


def lpis_on(vcpu):
    """The registers of a redistributor whose pending table is that of DESCRIBED."""
    bases = [f"rwrite {vcpu} 0x70 8 0x8003000f", f"rwrite {vcpu} 0x78 8 {0x4000000080040000 + 0x10000 * vcpu}"]
    return bases + [f"rwrite {vcpu} 0x0 4 1"]


def first_phase(queue, linux):
    lines = list(REGISTERS)
    for vcpu in range(4 if linux else 0):
        lines += lpis_on(vcpu)
    lines += [f"poke {0x80030008 + n} a1" for n in range(2 * EVENTS)]
    for device in (16, 17):
        lines += queue.run(f"mapd {device} 5 {0x800C0000 + 0x1000 * (device - 16)}")
    for collection in range(4):
        lines += queue.run(f"mapc {collection} {collection}")
    for device in (16, 17):
        for event in range(EVENTS):
            lines += queue.run(f"mapti {device} {event} {8200 + EVENTS * (device - 16) + event} {event % 4}")
    return lines


def command(chance):
    device, event = chance.choice((16, 17)), chance.randrange(EVENTS)
    collection, target = chance.randrange(4), chance.randrange(4)
    return chance.choice(
        [
            f"mapti {device} {event} {8200 + EVENTS * (device - 16) + event} {collection}",
            f"movi {device} {event} {collection}",
            f"movi {device} {event} {collection}",
            f"discard {device} {event}",
            f"mapc {collection} {target}",
            f"unmapc {collection}",
            f"int {device} {event}",
            f"clear {device} {event}",
            f"inv {device} {event}",
            f"movall {collection} {target}",
        ]
    )


def guest(chance, queue, linux):
    lines = []
    for n in range(COMMANDS):
        lines += queue.run(command(chance))
        if linux:
            lines.append(f"rwrite 2 0x0 4 {n % 2}")
        if n % 100 == 50:
            lines += ["write 0x0 4 0x0", "write 0x0 4 0x1"]
        if n % 10 == 0:
            lines.append(f"take {chance.randrange(4)}")
    return lines


def device(chance):
    return [f"signal {chance.choice((16, 17))} {chance.randrange(EVENTS)}" for _ in range(SIGNALS)]


def played(program, script):
    done = subprocess.run([program, "run"], input=script, capture_output=True, text=True, check=False)
    if done.returncode != 0:
        sys.exit(f"status {done.returncode}: {done.stdout[-200:]}")
    return done.stdout.splitlines()


def check(program, seed, linux):
    chance, queue = random.Random(seed), Queue()
    description = DESCRIPTION + (PROGRAMMED if linux else DESCRIBED)
    body = "phase\nthread\n" + "\n".join(first_phase(queue, linux)) + "\nphase\n"
    threads = [guest(chance, queue, linux)] + [device(chance) for _ in range(SIGNALLERS)]
    body += "".join("thread\n" + "\n".join(lines) + "\n" for lines in threads)
    report = played(program, description + body + "end\n")
    entries = [line.split(" ", 2)[2] for line in report if " -> " in line]
    calls = [entry.split(" -> ", 1)[0] for entry in entries]
    alone = "".join("phase\nthread\n" + "\n".join(calls[at : at + 60000]) + "\n" for at in range(0, len(calls), 60000))
    again = played(program, description + alone + "end\n")
    if any(" -> refused 0x" in entry for entry in entries):
        sys.exit(f"seed {seed}: the queue is out of step")
    if entries != [line.split(" ", 2)[2] for line in again if " -> " in line]:
        sys.exit(f"seed {seed}: the replies differ")
    if [line for line in report if line.startswith("vcpu")] != [line for line in again if line.startswith("vcpu")]:
        sys.exit(f"seed {seed}: what is pending differs")
    order = [line.split(" ", 2)[1] for line in report if " -> " in line]
    turns = sum(one != other for one, other in zip(order, order[1:]))
    delivered = sum(" -> delivered " in entry for entry in entries)
    off = sum(" -> dropped lpis-off" in entry for entry in entries)
    ran = sum(" -> ran " in entry for entry in entries)
    print(
        f"seed {seed}: {len(entries)} calls, {delivered} delivered, {off} where LPIs were off, {ran} commands ran, "
        f"another thread was next {turns} times"
    )


def main():
    linux = "--linux" in sys.argv
    program, *numbers = [word for word in sys.argv[1:] if word != "--linux"]
    seed = int(numbers[0]) if numbers else 1
    for round_ in range(int(numbers[1]) if len(numbers) > 1 else 1):
        check(program, seed + round_, linux)


main()
