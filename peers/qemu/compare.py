#!/usr/bin/env python3
"""Compares a report of `its run` with what QEMU answered to the same calls (to_script.py).

usage: compare.py ANSWERS REPORT

Prints counts by kind of call, each named difference with its count, and each other difference with its line. The
status is 0 where there is none of the latter.
"""
import collections
import re
import sys

# Bits of registers that differ, each for a reason that README.md gives: offset of the register, and the bits.
ITS_BITS = {
    0x0000: ("CTLR: Quiescent while enabled", 1 << 31),
    0x0004: ("IIDR", 0xFFFFFFFF),
    0x0008: ("TYPER: bytes of an ITT entry, CIL and CIDbits", 0x1F000000F0),
    0x000C: ("TYPER: bytes of an ITT entry, CIL and CIDbits", 0x1F),
    0xFFE8: ("PIDR2: the designer's bits", 0x0F),
}
BASER_BITS = ("BASER: page size while the table isn't valid", 0x300)
REDIST_BITS = {
    0x0000: ("GICR_CTLR: CES", 0x2),
    0x0070: ("GICR_PROPBASER: attributes", 0x0700000000000F80),
    0x0078: ("GICR_PENDBASER: attributes, PTZ", 0x4700000000000F80),
}


LINUX_BASE = 0x780      # what PROPBASER and PENDBASER read besides, with `linux`
LINUX_CTLR = ("GICR_CTLR: IR with `linux`", 0x4)


def named_value(call, theirs, ours, linux):
    """The name of the difference of two values that were read, if it is a known one."""
    fields = call.split()
    low, high = int(theirs.split()[1], 0), int(ours.split()[1], 0)
    offset = int(fields[-2], 0)
    if fields[0] == "read":
        name, bits = ITS_BITS.get(offset, BASER_BITS if 0x100 <= offset < 0x110 and not low >> 63 else ("", 0))
    else:
        name, bits = REDIST_BITS.get(offset, ("", 0))
        if linux and offset == 0:
            name, bits = LINUX_CTLR
        elif linux and high & 0xF80 != LINUX_BASE:
            name = ""
    return name if (low ^ high) & ~bits == 0 else ""


def named_step(command, theirs, ours, levels, lpis):
    """The name of the difference of two steps that took a command of these bytes, if it is a known one."""
    valid = command[23] >> 7
    pair = theirs, ours
    for what in ("int", "clear", "movall"):
        if pair == (f"ran {what}", f"refused {what} lpis-off") and not all(lpis.values()):
            return "INT, CLEAR or MOVALL where LPIs are off: QEMU does nothing, and tells no error"
    if pair == ("ran invall", "refused invall no-collection"):
        return "INVALL of a collection that isn't mapped: QEMU doesn't look"
    if pair == ("ran mapd", "refused mapd device-range") and valid and levels:
        return "MAPD where the level-1 entry isn't valid: QEMU tells no error, and maps nothing"
    if pair == ("refused mapd", "ran mapd") and not valid and command[8] & 31 < 16:
        return "MAPD with V = 0 of a device without a place: QEMU refuses it"
    if pair == ("refused inv", "ran inv"):
        return "INV of an event whose collection isn't mapped: QEMU refuses it"
    if pair == ("refused mapc", "ran mapc") and not valid:
        return "MAPC with V = 0 of a collection without a place: QEMU refuses it"
    return ""


class Seen:
    """What the calls so far were: the commands that wait in the queue, and some bits of registers."""

    def __init__(self):
        self.queue = collections.deque()
        self.on = False
        self.levels = False
        self.new_queue = False
        self.linux = False
        self.lpis = {}

    def note(self, call, remark):
        fields = call.split()
        if remark == "command":
            self.queue.append(bytes.fromhex(fields[2]))
        if fields[0] == "rwrite" and int(fields[2], 0) == 0:
            self.lpis[fields[1]] = int(fields[4], 0) & 1
        if fields[0] == "write":
            offset, value = int(fields[1], 0), int(fields[3], 0)
            if offset == 0:
                self.on = value & 1
            elif offset == 0x88:
                self.new_queue = False
            elif not self.on and offset == 0x80:
                self.new_queue = True
            elif not self.on and offset in (0x100, 0x104):
                self.levels = value >> (62 if fields[2] == "8" else 30) & 1

    def name(self, call, theirs, ours):
        """The name of a difference, if it is a known one. A step takes its command from the queue."""
        if call == "step":
            return named_step(self.queue.popleft(), theirs, ours, self.levels, self.lpis)
        if theirs == ours or call.split()[0] not in ("read", "rread"):
            return ""
        if call.startswith("read 0x88 ") and self.new_queue and ours == "value 0x0":
            return "CWRITER after a write of CBASER: QEMU keeps it"
        return named_value(call, theirs, ours, self.linux)


def report_lines(path):
    """The replies of a report by their places, leg after leg, and what was pending at its end."""
    replies, pending = [], {}
    with open(path) as report:
        for line in report:
            line = line.rstrip("\n")
            found = re.match(r"\d+ \d+\.\d+ (.*) -> (.*)$", line)
            if found:
                replies.append(found[2])
            elif line.startswith("vcpu "):
                pending[line.rsplit(" pending ", 1)[0]] = line.rsplit(" pending ", 1)[1]
            elif line.startswith("refused"):
                sys.exit(f"the script was not played: {line}")
    return replies, pending


def same(theirs, ours):
    """Whether a reply says what QEMU said. A take tells a priority besides, a refusal its reason."""
    if theirs.startswith(("lpi ", "refused ", "dropped")):
        return ours.startswith(theirs + " ")
    return theirs == ours


def kind(call, answer):
    word = call.split()[0]
    if word in ("step", "signal"):
        return f"{word}: {answer if word == 'step' else answer.split()[0]}"
    return word


def compare(path, replies, pending):
    """Counts by kind of call, named differences, and the text of each other one."""
    counts, differences, wrong = collections.Counter(), collections.Counter(), []
    place, seen = 0, Seen()
    with open(path) as answers:
        for line in answers:
            call, theirs, remark = line.rstrip("\n").split("\t")
            if call == "linux":
                seen.linux = True
                continue
            if call.startswith("vcpu "):
                ours, label, name = pending[call.rsplit(" ", 1)[0]], "vcpu: what is pending at the end", ""
            else:
                ours, label = replies[place], kind(call, theirs)
                place += 1
                seen.note(call, remark)
                name = seen.name(call, theirs, ours)
            if name or same(theirs, ours):
                counts[label] += 1
            else:
                wrong.append(f"{place - 1} {call}: QEMU {theirs} {remark}; here {ours}")
            if name:
                differences[name] += 1
    if place != len(replies):
        wrong.append(f"{place} answers and {len(replies)} replies")
    return counts, differences, wrong


def main():
    counts, differences, wrong = compare(sys.argv[1], *report_lines(sys.argv[2]))
    for label, count in sorted(counts.items()):
        print(f"{count:7} {label}")
    for name, count in sorted(differences.items()):
        print(f"{count:7} named difference: {name}")
    for text in wrong:
        print(f"DIFFERS {text}")
    known = sum(differences.values())
    print(f"{sum(counts.values())} agree, {known} of them with a named difference; {len(wrong)} differ")
    sys.exit(1 if wrong else 0)


main()
