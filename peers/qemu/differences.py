#!/usr/bin/env python3
"""Writes operations for guest.c that show, one by one, where QEMU and `its run` answer differently.

usage: differences.py OUT [CASE]

Each case has a device and LPIs of its own. README.md says what each shows, and why.
"""
import struct
import sys

import generate
from generate import CONFIG, COLLECTIONS, DEVICES, GICR, ITS, READ32, READ64, WRITE32, WRITE64

ITT = 0x440C0000


def itt(n):
    return (ITT + 0x400 * n) | 1 << 63


def setup(p):
    """Collections 0 to 3 for processors 0 to 3, and devices 1 to 15 with an event each, of LPI 8192 + device."""
    generate.configure(p)
    generate.tables(p, False)
    for c in range(4):
        p.queue(9, 0, c | c << 16 | 1 << 63)
    for d in range(16):
        p.queue(8 | d << 32, 3, itt(d))
        p.queue(10 | d << 32, (8192 + 16 + d) << 32, d % 4)
    p.kick()


def mapd_again(p):
    p.queue(8 | 1 << 32, 3, itt(1))
    p.queue(3 | 1 << 32, 0)


def mapti_again(p):
    p.queue(10, 8260 << 32, 2)
    p.kick()
    p.op(WRITE32, generate.TRANSLATER, 0)


def discard_unmapped(p):
    p.queue(9, 0, 3)
    p.queue(15 | 3 << 32, 0)
    p.queue(9, 0, 3 | 3 << 16 | 1 << 63)
    p.queue(3 | 3 << 32, 0)


def inv_unmapped(p):
    p.queue(9, 0, 3)
    p.queue(12 | 7 << 32, 0)
    p.queue(13, 0, 3)
    p.queue(9, 0, 3 | 3 << 16 | 1 << 63)


def unmapd_size(p):
    p.queue(8 | 4 << 32, 16, 0)
    p.queue(3 | 4 << 32, 0)


def unmapc_target(p):
    p.queue(9, 0, 1 | 100 << 16)
    p.queue(3 | 5 << 32, 0)
    p.queue(9, 0, 1 | 1 << 16 | 1 << 63)


def unmap_no_place(p):
    p.queue(8 | 65535 << 32, 0, 0)
    p.queue(9, 0, 8192)


def configuration(p):
    """LPI 8223 is turned off without an INV; then it comes."""
    p.op(WRITE64, CONFIG + 24, 0xA0 << 56)
    p.queue(3 | 15 << 32, 0)


def inv_elsewhere(p):
    """LPI 8218 is pending at processor 2 and disabled; it is enabled by an INV while its event goes to processor 1."""
    p.queue(3 | 10 << 32, 0)
    p.queue(9, 0, 2 | 1 << 16 | 1 << 63)
    p.kick()
    p.op(WRITE64, CONFIG + 24, 0xA1A1A1A1A1A1A1A1)
    p.queue(12 | 10 << 32, 0)


def priority(p):
    """LPIs 8216 and 8220 at processor 0, the higher one of the higher priority."""
    p.op(WRITE64, CONFIG + 24, 0x50 << 32 | 0xA1 | 1 << 32)
    for d in (8, 12):
        p.queue(12 | d << 32, 0)
        p.queue(3 | d << 32, 0)


def pendbaser(p):
    p.op(WRITE64, GICR + 0x78, generate.PENDING + 0x50000)
    p.op(READ64, GICR + 0x78)
    p.op(WRITE64, GICR + 0x78, generate.PENDING)


def invlpir(p):
    """LPI 8223 is turned off, and GICR_INVLPIR and GICR_INVALLR of its processor are written; then it comes."""
    p.op(WRITE64, CONFIG + 24, 0xA0A1A1A1A1A1A1A1)
    p.op(WRITE64, GICR + 0x20000 * 3 + 0xA0, 8223)
    p.op(WRITE64, GICR + 0x20000 * 3 + 0xB0, 0)
    p.queue(3 | 15 << 32, 0)


def cwriter(p):
    p.op(WRITE64, ITS + 0x88, 0x8000)
    p.op(READ64, ITS + 0x88)
    p.op(WRITE64, ITS + 0x88, 32 * p.next)


def baser_again(p):
    """BASER0 and BASER1 are written with their old values."""
    p.op(WRITE32, ITS, 0)
    p.its64(0x100, DEVICES | 1 << 63 | 2 << 8)
    p.its64(0x108, COLLECTIONS | 1 << 63 | 2 << 8)
    p.op(WRITE32, ITS, 1)
    p.queue(3 | 6 << 32, 0)


def movi_off(p):
    """LPIs of processor 0 are off as an event of it moves to processor 1."""
    p.op(WRITE32, GICR, 0)
    p.queue(1 | 4 << 32, 0, 1)
    p.kick()
    p.op(WRITE32, GICR, 1)
    p.queue(3 | 4 << 32, 0)


def page_size(p):
    """BASER0 and BASER1 with pages of 4 KiB. No command comes after it."""
    p.op(WRITE32, ITS, 0)
    for offset, base in ((0x100, DEVICES), (0x108, COLLECTIONS)):
        p.its64(offset, base | 1 << 63)
        p.op(READ64, ITS + offset)


def lpis_off(p):
    """LPIs of processor 3 are turned off, and an event of it comes; they are turned on with another pending table."""
    p.op(WRITE32, GICR + 0x60000, 0)
    p.op(READ32, GICR + 0x60000)
    p.queue(3 | 15 << 32, 0)
    p.kick()
    p.op(WRITE64, GICR + 0x60078, generate.PENDING_TOO)
    p.op(WRITE32, GICR + 0x60000, 1)
    p.queue(3 | 15 << 32, 0)


CASES = [mapd_again, mapti_again, discard_unmapped, inv_unmapped, unmapd_size, unmapc_target, unmap_no_place,
         inv_elsewhere, priority, configuration, pendbaser, invlpir, cwriter, baser_again, lpis_off,
         movi_off, page_size]


def main():
    p = generate.Player(0, False)
    setup(p)
    for case in CASES:
        if len(sys.argv) == 2 or case.__name__ in sys.argv[2:]:
            case(p)
            p.kick()
            p.drain()
    with open(sys.argv[1], "wb") as out:
        for op in p.ops:
            out.write(struct.pack("<3Q", *op))
        out.write(bytes(24))


main()
