#!/usr/bin/env python3
"""Runs QEMU and writes its trace of the translator, with the guest bytes that matter beside it.

usage: record.py LOG RAMFILE RAMBASE -- QEMU ARGUMENTS..

QEMU's trace comes through a pipe that holds one line: QEMU waits until each line has been read, so the bytes of
guest memory (RAMFILE, which QEMU shares) are read here while the write of the register that made QEMU look at them
is still under way. Lines are added: `command ADDR HEX` with the 32 bytes of each command, `mem ADDR HEX` where the
configuration table or the first level of the device table changed, `mem` too with the bits of a pending table's first
64 LPIs and last ones as LPIs are turned on with it, and `pending AFFINITY HEX` with the bytes of each pending table at
the end, from that of LPI 8192 on.
"""
import fcntl
import mmap
import os
import re
import subprocess
import sys

F_SETPIPE_SZ = 1031
WRITE = re.compile(r"gicv3_its_write .*offset 0x([0-9a-f]+) data 0x([0-9a-f]+) size (\d+)")
REDIST = re.compile(r"gicv3_redist_write .*redistributor 0x([0-9a-f]+) write: "
                    r"offset 0x([0-9a-f]+) data 0x([0-9a-f]+) size (\d+)")
JOINED = re.compile(r"(?<=.)(?=gicv3_\w+ GICv3 )")
COMMAND = re.compile(r"gicv3_its_process_command .*offset 0x([0-9a-f]+)")


class Ram:
    """The guest's memory, and what of it was told last."""

    def __init__(self, path, base, log):
        self.file = open(path, "r+b")
        self.map = mmap.mmap(self.file.fileno(), 0)
        self.base = base
        self.log = log
        self.told = {}

    def bytes(self, address, length):
        start = address - self.base
        return self.map[start:start + length]

    def tell(self, word, address, data):
        self.log.write(f"{word} {address:#x} {data.hex()}\n")

    def tell_changes(self, address, length, unit):
        """Tells a stretch where it isn't what was told of it last (zero at first), in runs of at most 64 bytes."""
        now = self.bytes(address, length)
        old = self.told.get(address, bytes(length))
        i = 0
        while now != old and i < length:
            end = i
            while end < min(length, i + 64) and now[end:end + unit] != old[end:end + unit]:
                end += unit
            if end > i:
                self.tell("mem", address + i, now[i:end])
            i = max(end, i + unit)
        self.told[address] = now


def merge(registers, key, offset, value, size):
    """Puts a write of 4 or 8 bytes into the register of 8 bytes that it belongs to."""
    place = (key, offset & ~7)
    if size == 8:
        registers[place] = value
    else:
        shift = 8 * (offset & 7)
        old = registers.get(place, 0)
        registers[place] = (old & ~(0xFFFFFFFF << shift)) | (value << shift)


class Watch:
    """What the register writes said about where queue and tables are."""

    def __init__(self):
        self.registers = {}

    def write(self, line):
        """Takes a write, unless it is one of a base that is in use: QEMU then ignores it."""
        found = WRITE.search(line)
        key = "its"
        if found:
            offset, value, size = int(found[1], 16), int(found[2], 16), int(found[3])
        else:
            found = REDIST.search(line)
            if not found:
                return
            key = int(found[1], 16)
            offset, value, size = int(found[2], 16), int(found[3], 16), int(found[4])
        if self.get(key, 0) & 1 == 0 or offset & ~7 in (0, 0x88):
            merge(self.registers, key, offset, value, size)

    def get(self, key, offset):
        return self.registers.get((key, offset), 0)

    def look(self, ram):
        """Tells the configuration table and the first level of the device table where they changed."""
        propbaser = self.get(0, 0x70)
        if propbaser:
            ram.tell_changes(propbaser & 0x000FFFFFFFFFF000, 0x10000 - 8192, 1)
        baser = self.get("its", 0x100)
        if baser >> 62 == 3:
            ram.tell_changes(baser & 0x0000FFFFFFFF0000, 64, 8)


    def look_at_pending(self, line, ram):
        """Tells what a pending table has as LPIs are turned on, of the LPIs that the guests use."""
        found = REDIST.search(line)
        if found and int(found[2], 16) == 0 and int(found[3], 16) & 1:
            table = self.get(int(found[1], 16), 0x78) & 0x000FFFFFFFFF0000
            for offset in (1024, 8184):
                ram.tell("mem", table + offset, ram.bytes(table + offset, 8))


def lines_of(stream):
    """QEMU's lines. Some of its error messages lack their end of line, and the next event follows in the same line."""
    for line in stream:
        for part in JOINED.split(line):
            yield part.rstrip("\n") + "\n"


def follow(stream, log, path, base):
    """Copies QEMU's lines to the log, and adds the bytes that the guest's commands stand for."""
    ram = None
    watch = Watch()
    for line in lines_of(stream):
        if ram is None:
            ram = Ram(path, base, log)
        watch.write(line)
        command = COMMAND.search(line)
        if command:
            # QEMU counts the offset in commands
            place = (watch.get("its", 0x80) & 0x000FFFFFFFFFF000) + 32 * int(command[1], 16)
            watch.look(ram)
            ram.tell("command", place, ram.bytes(place, 32))
        if "gicv3_redist_write" in line or "gicv3_its_translation_write" in line:
            watch.look(ram)
        watch.look_at_pending(line, ram)
        log.write(line)
    return ram, watch


def tell_pending(ram, watch, log):
    """Tells what the pending tables hold at the end."""
    for key, offset in sorted((k for k in watch.registers if k[0] != "its"), key=str):
        if offset == 0x78:
            base = watch.get(key, offset) & 0x000FFFFFFFFF0000
            log.write(f"pending {key} {ram.bytes(base + 1024, 7168).hex()}\n")


def main():
    path, ram_path, base = sys.argv[1], sys.argv[2], int(sys.argv[3], 0)
    reader, writer = os.pipe2(os.O_DIRECT)
    fcntl.fcntl(writer, F_SETPIPE_SZ, 4096)
    qemu = subprocess.Popen(sys.argv[5:], stderr=writer)
    os.close(writer)
    with open(path, "w") as log, os.fdopen(reader, "r", buffering=4096) as stream:
        ram, watch = follow(stream, log, ram_path, base)
        tell_pending(ram, watch, log)
    sys.exit(qemu.wait())


main()
