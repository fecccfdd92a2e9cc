#!/usr/bin/env python3
"""Writes the operations that guest.c plays: registers, tables, random commands good and bad, and acknowledgements.

usage: generate.py SEED BATCHES OUT [--levels] [--registers] [--linux] [--priorities] [--quiet]

--levels uses a device table of two levels. --registers accesses registers between the commands, and turns the
translator off and on. --linux does what is for scripts with the line `linux`: base registers are written with their
own values, and LPIs are turned off and on. --priorities gives LPIs several. --quiet leaves out what QEMU and `its run`
are known to answer differently (README.md), so that all else can be compared to the last reply.
"""
import argparse
import random
import struct

ITS, TRANSLATER, GICR = 0x08080000, 0x08090040, 0x080A0000
DEVICES, COLLECTIONS, QUEUE, CONFIG = 0x44000000, 0x44010000, 0x44020000, 0x44030000
PENDING, PAGES, ITTS, WIDE_ITTS = 0x44040000, 0x44080000, 0x440C0000, 0x45000000
PENDING_TOO = 0x44800000
PROCESSORS, PLACES = 4, 128
WRITE32, WRITE64, READ32, READ64, TAKE, DRAIN = range(1, 7)
LPIS = range(8192, 8216)


class Player:
    """The list of operations, and the queue's next place."""

    def __init__(self, seed, quiet):
        self.random = random.Random(seed)
        self.ops = []
        self.next = 0
        self.quiet = quiet
        self.priorities = False
        self.itts = 0
        self.wide = 0
        self.unmapped = {4, 8191}

    def op(self, what, a=0, b=0):
        self.ops.append((what, a, b))

    def its64(self, offset, value):
        self.op(WRITE64, ITS + offset, value)

    def base(self, offset, value):
        """A write in whole, or by half."""
        if self.random.random() < 0.5:
            self.its64(offset, value)
        else:
            self.op(WRITE32, ITS + offset, value & 0xFFFFFFFF)
            self.op(READ64, ITS + offset)
            self.op(WRITE32, ITS + offset + 4, value >> 32)

    def queue(self, *words):
        """Puts one command into the queue; it runs at the next `kick`."""
        for i, word in enumerate(words + (0,) * (4 - len(words))):
            self.op(WRITE64, QUEUE + 32 * self.next + 8 * i, word)
        self.next = (self.next + 1) % PLACES

    def kick(self):
        self.its64(0x88, 32 * self.next)
        self.op(READ64, ITS + 0x90)

    def drain(self):
        for cpu in range(PROCESSORS):
            self.op(DRAIN, cpu)


def priority(p):
    """A priority, which LPIs with lower numbers come before; one and the same unless several are asked for."""
    return p.random.choice([0x20, 0x60, 0xA0, 0xA4, 0xFC]) if p.priorities else 0xA0


def configure(p):
    """The configuration table and the redistributors: most LPIs enabled."""
    p.config = {8192 + i: priority(p) | (i % 7 != 5) for i in range(64)}
    for i in range(0, 64, 8):
        word = bytes(p.config[8192 + i + k] for k in range(8))
        p.op(WRITE64, CONFIG + i, int.from_bytes(word, "little"))
    for cpu in range(PROCESSORS):
        frame = GICR + 0x20000 * cpu
        p.op(WRITE64, frame + 0x70, CONFIG | 15)
        p.op(WRITE64, frame + 0x78, (PENDING + 0x10000 * cpu) | 1 << 62)
        p.op(WRITE32, frame, 1)
        for offset in (0x70, 0x78):
            p.op(READ64, frame + offset)


def bases(p, levels):
    """The device table's base register, and the collection table's."""
    p.base(0x100, DEVICES | 1 << 63 | (1 << 62 if levels else 0) | 2 << 8)
    p.base(0x108, COLLECTIONS | 1 << 63 | 2 << 8)


def tables(p, levels):
    """The translator's registers, some of the writes refused or masked, and the first level of a device table."""
    if levels:
        for k, page in ((0, PAGES), (2, PAGES + 0x10000)):
            p.op(WRITE64, DEVICES + 8 * k, page | 1 << 63)
    bases(p, levels)
    p.base(0x80, QUEUE | 1 << 63)
    for offset in (0x80, 0x88, 0x90, 0x100, 0x108):
        p.op(READ64, ITS + offset)
    p.op(WRITE32, ITS, 1)
    p.op(READ32, ITS)
    p.next = 0


def device(p):
    return p.random.choice([0, 0, 1, 1, 2, 3, 7, 8191, 8192, 16384, 16385, 24576, 65535, 65536])


def event(p):
    return p.random.choice([0, 1, 2, 3, 4, 5, 6, 7, 8, 15, 31, 65535, 65536])


def good(p, what):
    """A device or an event that is more often mapped than not."""
    return p.random.choice([0, 1, 2, 3]) if p.random.random() < 0.75 else what(p)


def icid(p):
    return p.random.choice([0, 1, 2, 3, 4] if p.random.random() < 0.9 else [8191, 8192, 65535])


def intid(p):
    return p.random.choice(LPIS) if p.random.random() < 0.85 else p.random.choice([0, 1023, 8191, 65535, 65536])


def target(p):
    return p.random.choice(range(PROCESSORS)) if p.random.random() < 0.9 else p.random.choice([4, 100, 65535])


def fresh_itt(p):
    """Memory that was no ITT before, so it is zero, as the standard wants it."""
    p.itts += 1
    return ITTS + 0x400 * (p.itts - 1 if p.quiet else p.random.randrange(8))


def mapd(p, d):
    size = p.random.choice([0, 1, 2, 3, 4] if p.random.random() < 0.9 or p.wide == 15 else [15, 16, 31])
    valid = p.random.random() < 0.8
    if not valid and p.quiet:
        size = 0
    itt = fresh_itt(p) if size < 15 else WIDE_ITTS + 0x100000 * p.wide
    p.wide += size == 15
    p.queue(8 | d << 32, size, itt | valid << 63)


def mapc(p):
    valid = p.random.random() < 0.8
    c, t = icid(p), target(p) if valid or not p.quiet else 0
    if c < 8192 and t < PROCESSORS:
        (p.unmapped.discard if valid else p.unmapped.add)(c)
    p.queue(9, 0, c | t << 16 | valid << 63)


def discard(p, d, e):
    """A DISCARD. QEMU refuses it where the event's collection isn't mapped, so all collections are mapped before."""
    if p.quiet:
        for c in sorted(p.unmapped):
            p.queue(9, 0, c | p.random.randrange(PROCESSORS) << 16 | 1 << 63)
        p.unmapped.clear()
    p.queue(15 | d << 32, e)


def mapti(p, d, e):
    """A MAPTI. QEMU gives an event that is mapped its new LPI, so the event is discarded before."""
    if p.quiet:
        discard(p, d, e)
    p.queue(10 | d << 32, e | intid(p) << 32, icid(p))


def mapi(p, d):
    e = p.random.choice(list(LPIS) + [1, 65536])
    if p.quiet:
        discard(p, d, e)
    p.queue(11 | d << 32, e, icid(p))


def command(p):
    """One random command."""
    d, e = good(p, device), good(p, event)
    kind = p.random.choices(range(11), [1, 3, 12, 2, 6, 12, 3, 3, 2, 2, 1])[0]
    if kind == 0:
        mapd(p, good(p, device))
    elif kind == 1:
        mapc(p)
    elif kind == 2:
        mapti(p, d, e)
    elif kind == 3:
        mapi(p, d)
    elif kind == 4:
        p.queue(1 | d << 32, e, icid(p))
    elif kind in (5, 6):
        p.queue({5: 3, 6: 4}[kind] | d << 32, e)
    elif kind == 7:
        discard(p, d, e)
    elif kind == 8:
        p.queue(14, 0, target(p) << 16, target(p) << 16)
    elif kind == 9:
        p.queue(*p.random.choice([(12 | d << 32, e), (13, 0, icid(p)), (5, 0, target(p) << 16)]))
    else:
        p.queue(p.random.choice([0, 2, 6, 7, 16, 0x20, 0x40, 0xFF]))


def begin(p):
    """What most commands need: devices 0 to 3 and 5 with eight events each, collections 0 to 3, some events."""
    for d in (0, 1, 2, 3, 5):
        p.queue(8 | d << 32, 2, fresh_itt(p) | 1 << 63)
    for c in range(4):
        p.queue(9, 0, c | c << 16 | 1 << 63)
    for d in range(4):
        for e in range(4):
            p.queue(10 | d << 32, e | (8192 + 4 * d + e) << 32, p.random.randrange(4))
    p.kick()


def configure_again(p):
    """Enables or disables an LPI, and has that read.

    QEMU keeps no copy of a configuration; here one stands till an INV. So the INV has to name an event of the LPI:
    device 5, which no random command names, is given one. After an INV, QEMU looks at the processor of the event's
    collection alone, so an INVALL follows.
    """
    lpi = p.random.choice(LPIS)
    p.config[lpi] = priority(p) | p.random.choice([0, 1])
    base = lpi & -8
    word = bytes(p.config.get(base + k, 0) for k in range(8))
    p.op(WRITE64, CONFIG + base - 8192, int.from_bytes(word, "little"))
    discard(p, 5, 0)
    p.queue(10 | 5 << 32, lpi << 32, 0)
    p.queue(12 | 5 << 32, 0)
    p.queue(13, 0, 0)
    p.kick()


def access(p):
    """A read of any register, in whole or by half, or a write that a translator which is enabled ignores."""
    offset = p.random.choice([0, 4, 8, 12, 0x80, 0x84, 0x88, 0x8C, 0x90, 0x94,
                              0x100, 0x104, 0x108, 0x10C, 0x110, 0xFFE8])
    if p.random.random() < 0.7:
        wide = offset % 8 == 0 and offset not in (0, 0xFFE8) and p.random.random() < 0.5
        p.op(READ64 if wide else READ32, ITS + offset)
    elif p.random.random() < 0.5:
        p.its64(p.random.choice([0x80, 0x100, 0x108, 0x110]), p.random.getrandbits(64))
    else:
        p.op(READ64, GICR + 0x20000 * p.random.randrange(PROCESSORS) + p.random.choice([0x70, 0x78]))


def off_and_on(p):
    """The translator is turned off; signals and commands come; a new queue begins; it is turned on."""
    p.op(WRITE32, ITS, 0)
    p.op(READ32, ITS)
    p.op(WRITE32, TRANSLATER, p.random.randrange(4))
    for _ in range(p.random.randrange(4)):
        command(p)
    p.kick()
    if p.linux and p.random.random() < 0.7:
        bases(p, p.levels)
    if p.random.random() < 0.5:
        p.its64(0x80, QUEUE | 1 << 63 | p.random.getrandbits(64) & 0x3800000000000C00)
        for offset in (0x80, 0x88, 0x90):
            p.op(READ64, ITS + offset)
        p.next = 0
        # QEMU leaves CWRITER as it was. The commands are lost, so that no collection is sure to be mapped.
        p.its64(0x88, 0)
        p.unmapped.update([0, 1, 2, 3, 4, 8191])
    p.op(WRITE32, ITS, 1)
    p.op(READ64, ITS + 0x90)


def lpis_off_and_on(p):
    """LPIs of a processor are turned off; signals and commands come; they are turned on with tables of either place.

    QEMU keeps what is pending in the table, and the translator here forgets it. So the processor is drained before,
    and the table's bits of the LPIs that a generated event may have are cleared. A MOVI doesn't come while they are
    off: QEMU moves the event then.
    """
    cpu = p.random.randrange(PROCESSORS)
    frame, there = GICR + 0x20000 * cpu, p.random.random() < 0.5
    pending = (PENDING_TOO if there else PENDING) + 0x10000 * cpu
    p.op(DRAIN, cpu)
    p.op(WRITE32, frame, 0)
    for _ in range(p.random.randrange(4)):
        p.op(WRITE32, TRANSLATER, good(p, event))
        p.queue(p.random.choice([3, 4]) | p.random.randrange(4) << 32, good(p, event))
    p.queue(14, 0, cpu << 16, target(p) << 16)
    p.kick()
    for offset in (1024, 8184):
        p.op(WRITE64, pending + offset, 0)
    p.op(WRITE64, frame + 0x70, CONFIG | 15 | p.random.choice([0, 0x780]))
    p.op(WRITE64, frame + 0x78, pending | p.random.choice([0, 0x780, 1 << 62]))
    for offset in (0x70, 0x78):
        p.op(READ64, frame + offset)
    p.op(READ32, frame)
    p.op(WRITE32, frame, p.random.choice([1, 3]))
    p.op(READ32, frame)


def batch(p):
    if p.registers:
        for _ in range(p.random.randrange(4)):
            access(p)
        if p.random.random() < 0.1:
            off_and_on(p)
    if p.linux and p.random.random() < 0.15:
        lpis_off_and_on(p)
    if p.random.random() < 0.1:
        p.drain()
        configure_again(p)
    for _ in range(p.random.randrange(1, 12)):
        command(p)
    p.kick()
    for _ in range(p.random.randrange(6)):
        p.op(WRITE32, TRANSLATER, good(p, event))
    if p.random.random() < 0.3:
        p.op(TAKE, p.random.randrange(PROCESSORS))
    if p.random.random() < 0.5:
        p.drain()


def main():
    parser = argparse.ArgumentParser()
    parser.add_argument("seed", type=int)
    parser.add_argument("batches", type=int)
    parser.add_argument("out")
    parser.add_argument("--levels", action="store_true")
    parser.add_argument("--registers", action="store_true")
    parser.add_argument("--linux", action="store_true")
    parser.add_argument("--priorities", action="store_true")
    parser.add_argument("--quiet", action="store_true")
    args = parser.parse_args()
    p = Player(args.seed, args.quiet)
    p.registers, p.levels, p.linux, p.priorities = args.registers, args.levels, args.linux, args.priorities
    configure(p)
    tables(p, args.levels)
    begin(p)
    for _ in range(args.batches):
        batch(p)
    p.drain()
    with open(args.out, "wb") as out:
        for op in p.ops:
            out.write(struct.pack("<3Q", *op))
        out.write(bytes(24))


if __name__ == "__main__":
    main()
