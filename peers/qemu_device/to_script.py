#!/usr/bin/env python3
"""Turns a record of watch.c into inputs of `its check`: a script, the line `trace`, and what the library answered.

usage: to_script.py RECORD FOLDER [--most BYTES] [--short TITLE]

Each machine that a guest used, made at a reset or from loaded tables, is a script of its own: FOLDER/N.its, its report
FOLDER/N.report, and both as FOLDER/N.check. Its windows are the stretches of guest memory that calls or tables name. A
poke that leaves its bytes as they were is left out, and a read of a register that repeats the call before it with the
same reply. --most ends a script where the input of a check would be longer. --short makes an example of it, with a
title: without saves and reads of memory, and of a table that is copied in whole its first piece.
"""
import argparse
import os

UNIT = 0x1000
WINDOWS = 16
THREAD = 60000
CHECKED = 16 << 20


class Memory:
    """The bytes of the script's machine, in pieces of 64: those that were never written are zero, None isn't known."""

    def __init__(self):
        self.pieces = {}

    def unknown(self, address, length):
        for at in range(address // 64, (address + length + 63) // 64):
            self.pieces[at] = None

    def write(self, address, data):
        """Whether this may change a byte."""
        changed = False
        while data:
            at, offset = divmod(address, 64)
            part, data, address = data[:64 - offset], data[64 - offset:], address + 64 - offset
            piece = self.pieces.setdefault(at, bytes(64))
            if piece is None and len(part) < 64:
                changed = True
            elif piece is None or piece[offset:offset + len(part)] != part:
                piece = piece or bytes(64)
                self.pieces[at] = piece[:offset] + part + piece[offset + len(part):]
                changed = True
        return changed


class Machine:
    def __init__(self):
        self.description = []
        self.calls = []
        self.left = []
        self.stretches = []
        self.memory = Memory()
        self.of_body = False
        self.again = 0

    def name(self, address, length):
        self.stretches.append((address // UNIT * UNIT, (address + length + UNIT - 1) // UNIT * UNIT))

    def line(self, line):
        fields = line.split()
        if fields[:2] == ["#", "table"]:
            self.name(int(fields[2], 0), int(fields[3]))
            if self.of_body:
                self.memory.unknown(int(fields[2], 0), int(fields[3]))
        elif fields[0] == "body":
            self.of_body = True
        elif fields[0] == "bytes":
            self.name(int(fields[1], 0), len(fields[2]) // 2)
            self.memory.write(int(fields[1], 0), bytes.fromhex(fields[2]))
            self.description.append(line)
        elif not self.of_body:
            self.description.append(line)
        elif fields[0] == "vcpu":
            self.left.append(line)
        elif " -> " in line:
            self.call(line, fields)

    def call(self, line, fields):
        if fields[0] == "poke":
            self.name(int(fields[1], 0), len(fields[2]) // 2)
            entry = int.from_bytes(bytes.fromhex(fields[2]), "little") if len(fields[2]) == 16 else 0
            if entry >> 63:                 # of the first level of the device table: its page
                self.name(entry & 0x000FFFFFFFFF0000, 0x10000)
            if not self.memory.write(int(fields[1], 0), bytes.fromhex(fields[2])):
                return
        elif fields[0] == "peek":
            self.name(int(fields[1], 0), int(fields[2]))
            if " -> bytes " in line:
                self.memory.write(int(fields[1], 0), bytes.fromhex(fields[-1]))
        elif fields[0] == "write" and int(fields[1], 0) & ~7 in (0x80, 0x100, 0x108):
            value = int(fields[3], 0)
            if value >> 63:
                self.name(value & 0x0000FFFFFFFFF000, UNIT * ((value & 0xFF) + 1))
        elif fields[0] == "read" and self.calls and self.calls[-1] == line:
            self.again += 1
            return
        self.calls.append(line)

    def windows(self):
        """The fewest bytes, in at most 16 windows, that hold what was named."""
        merged = []
        for base, end in sorted(set(self.stretches)):
            if merged and base <= merged[-1][1]:
                merged[-1][1] = max(end, merged[-1][1])
            else:
                merged.append([base, end])
        while len(merged) > WINDOWS:
            gap, i = min((merged[i + 1][0] - merged[i][1], i) for i in range(len(merged) - 1))
            merged[i:i + 2] = [[merged[i][0], merged[i + 1][1]]]
        return merged

    def shorten(self, title):
        kept, end = [], None
        for line in self.calls:
            fields = line.split()
            if fields[0] == "poke" and len(fields[2]) == 128:
                following, end = end == int(fields[1], 0), int(fields[1], 0) + 64
                if following:
                    continue
            elif fields[0] in ("peek", "save"):
                continue
            kept.append(line)
        self.calls = kept
        self.description[:0] = [f"# {it.strip()}" for it in title.split("|")]

    def cut(self, most):
        """Leaves out the calls from where the input of a check would be longer, to the last where nothing is pending."""
        size, waiting, last = sum(len(line) + 1 for line in self.description), set(), 0
        for i, line in enumerate(self.calls):
            size += 2 * len(line) + 24
            if size > most:
                del self.calls[last:]
                self.left = [f"vcpu {vcpu} pending none" for vcpu in range(len(self.left))]
                return True
            fields = line.split()
            if fields[0] == "signal" and fields[4] == "delivered":
                waiting.add(fields[6])
            elif fields[0] == "claim":
                waiting.discard(fields[2])
            if not waiting:
                last = i + 1
        return False

    def script(self):
        lines = list(self.description)
        windows = self.windows()
        lines += [f"window {base:#x} {end - base:#x}" for base, end in windows]
        for i, line in enumerate(self.calls):
            if i % THREAD == 0:
                lines += ["phase", "thread"]
            lines.append(line.split(" -> ")[0])
        return lines + ["end"]

    def report(self):
        lines = [f"{i} {i // THREAD + 1}.1 {line}" for i, line in enumerate(self.calls)]
        return ["leg 1", *lines, *self.left, "done"]


def machines(record):
    found = []
    with open(record) as f:
        for line in f:
            line = line.rstrip("\n")
            if line == "machine":
                found.append(Machine())
            elif found and line:
                found[-1].line(line)
    return [machine for machine in found if machine.stretches]


def main():
    parser = argparse.ArgumentParser()
    parser.add_argument("record")
    parser.add_argument("folder")
    parser.add_argument("--most", type=int, default=CHECKED - 100000)
    parser.add_argument("--short")
    args = parser.parse_args()
    os.makedirs(args.folder, exist_ok=True)
    for number, machine in enumerate(machines(args.record)):
        if args.short:
            machine.shorten(args.short)
        cut = machine.cut(args.most)
        script, report = machine.script(), machine.report()
        base = os.path.join(args.folder, str(number))
        for name, lines in ((".its", script), (".report", report), (".check", [*script, "trace", *report])):
            with open(base + name, "w") as f:
                f.write("\n".join(lines) + "\n")
        words = [line.split()[0] for line in machine.calls]
        counts = " ".join(f"{word} {words.count(word)}" for word in sorted(set(words)))
        print(f"{base}.check: {len(words)} calls ({counts}){', cut' if cut else ''}, {machine.again} reads again, "
              f"{sum(end - base for base, end in machine.windows()) >> 10} KiB in {len(machine.windows())} windows")


main()
