#!/usr/bin/env python3
"""Turns a log of record.py into a script of `its run`, and a list of what QEMU answered.

usage: to_script.py LOG SCRIPT ANSWERS [--title TEXT] [--linux] [--short N] [--priorities] [--calls N] [--legs N]
                    [--lpis-alone]

Line k of ANSWERS is the answer to the script's k-th call; before them stands a line `linux` where the script has one.
--linux gives the script the line `linux`. --short leaves out reads that tell nothing new, and of the signals of an
event that are acknowledged at once all but N. --priorities has `best` and `claim` for each acknowledgement in place of
`take`, which doesn't weigh priorities as QEMU does. --calls ends the script after N calls. --legs cuts it by migrations
into N legs of about the same length, so the second and later legs go on from tables that a save wrote. --lpis-alone is
for a guest that has no other interrupts: its acknowledgement that gets none is then compared too.
"""
import argparse
import re

import commands
import fewer
import trace

UNIT = 0x10000
MASK = 0xF8
OF_PROCESSORS = ("take", "best", "claim", "rwrite", "rread")
FEW = 16        # processors that the line `vcpus` may have


def halves(low, offset, value):
    """The register of 8 bytes after a write of 4."""
    old = low.get(offset & ~7, 0)
    low[offset & ~7] = old & 0xFFFFFFFF | value << 32 if offset & 4 else old & ~0xFFFFFFFF | value
    return low[offset & ~7]


class Stretches:
    """The places of guest memory that calls name, as (base, end), each rounded to 64 KiB."""

    def __init__(self):
        self.found = set()
        self.low = {}
        self.on = False
        self.devices = None

    def add(self, base, length):
        self.found.add((base & -UNIT, (base + length + UNIT - 1) & -UNIT))

    def poke(self, address, data, remark):
        self.add(address, len(data))
        words = [int.from_bytes(data[i:i + 8], "little") for i in range(0, len(data), 8)]
        if remark == "command":
            if data[0] == 8 and words[2] >> 63 and words[1] & 31 < 16:
                self.add(words[2] & 0x000FFFFFFFFFFF00, 8 << (words[1] & 31) + 1)
        elif self.devices is not None and address & -UNIT == self.devices:
            for word in words:
                self.add(word & 0x000FFFFFFFFF0000, UNIT)

    def write(self, offset, size, value):
        """A base counts while the translator is off. One that is written by half stands in its register whole."""
        if size == 4:
            value = halves(self.low, offset, value)
        if offset == 0:
            self.on = value & 1
        elif offset & ~7 in (0x80, 0x100, 0x108) and value >> 63 and not self.on:
            self.add(value & 0x0000FFFFFFFF0000, UNIT)
            if offset & ~7 == 0x100:
                self.devices = value & 0x0000FFFFFFFF0000

    def call(self, text, remark):
        f = text.split()
        if f[0] == "poke":
            self.poke(int(f[1], 0), bytes.fromhex(f[2]), remark)
        elif f[0] == "write":
            self.write(int(f[1], 0), int(f[2]), int(f[3], 0))
        elif f[0] == "rwrite" and int(f[2], 0) in (0x70, 0x78):
            self.add(int(f[4], 0) & 0x000FFFFFFFFF0000, UNIT)


def stretches(calls):
    places = Stretches()
    for text, _, remark in calls:
        places.call(text, remark)
    return sorted(places.found)


def windows(places, most=12):
    """The fewest bytes in at most so many windows that hold all places."""
    merged = []
    for base, end in places:
        if merged and base <= merged[-1][1]:
            merged[-1][1] = max(end, merged[-1][1])
        else:
            merged.append([base, end])
    while len(merged) > most:
        gaps = [merged[i + 1][0] - merged[i][1] for i in range(len(merged) - 1)]
        i = gaps.index(min(gaps))
        merged[i:i + 2] = [[merged[i][0], merged[i + 1][1]]]
    return merged


def by_priority(calls):
    """The calls, with `best` and `claim` in place of `take`.

    The guests write 0xFF to the priority mask, of which QEMU's processors keep the five bits that they have.
    """
    changed = []
    for text, answer, remark in calls:
        word, *fields = text.split()
        if word != "take":
            changed.append((text, answer, remark))
            continue
        changed.append((f"best {fields[0]} {MASK}", answer, remark))
        if answer != "none":
            changed.append((f"claim {fields[0]} {answer.split()[1]}", answer, remark))
    return changed


def description(calls, title, linux):
    lines = [f"# {line}" for line in title]
    cpus = 1 + max([int(t.split()[1]) for t, _, _ in calls if t.split()[0] in OF_PROCESSORS] + [0])
    word = "vcpus" if cpus <= FEW else "processors"
    lines += [f"{word} {cpus}", "shards 16", "ids 16 16", "gicr"] + ["linux"] * linux
    lines += [f"window {base:#x} {end - base:#x}" for base, end in windows(stretches(calls))]
    return lines


def line_of(text, remark):
    """A call's line. A command's bytes are spelled where the script can, and told in a comment elsewhere."""
    if remark != "command":
        return [text]
    address, data = text.split()[1:]
    words, exact = commands.spelled(bytes.fromhex(data))
    return [f"command {address} {words}"] if exact else [f"# {words}", text]


def body(calls, legs):
    lines = []
    for leg in range(legs):
        if leg:
            lines.append("migrate")
        lines += ["phase", "thread"]
        for text, _, remark in calls[len(calls) * leg // legs:len(calls) * (leg + 1) // legs]:
            lines += line_of(text, remark)
    return lines + ["end"]


def main():
    parser = argparse.ArgumentParser()
    parser.add_argument("log")
    parser.add_argument("script")
    parser.add_argument("answers")
    parser.add_argument("--title", default="")
    parser.add_argument("--linux", action="store_true")
    parser.add_argument("--short", type=int)
    parser.add_argument("--priorities", action="store_true")
    parser.add_argument("--calls", type=int)
    parser.add_argument("--legs", type=int, default=1)
    parser.add_argument("--lpis-alone", action="store_true")
    args = parser.parse_args()
    calls, left = trace.read_log(args.log, args.lpis_alone)
    calls = fewer.configuration(calls)
    if args.short is not None:
        calls = fewer.short(calls, args.short)
    if args.priorities:
        calls = by_priority(calls)
    if args.calls is not None:
        calls, left = calls[:args.calls], {}
    title = [line for line in re.split(r"\s*\|\s*", args.title) if line]
    with open(args.script, "w") as script:
        script.write("\n".join(description(calls, title, args.linux) + [""] + body(calls, args.legs)) + "\n")
    with open(args.answers, "w") as answers:
        answers.write("linux\t\t\n" * args.linux)
        for text, answer, remark in calls:
            answers.write(f"{text}\t{answer}\t{remark}\n")
        for cpu, lpis in sorted(left.items()):
            answers.write(f"vcpu {cpu} pending\t{' '.join(map(str, lpis)) or 'none'}\t\n")


main()
