#!/usr/bin/env python3
"""Writes a script to standard output that restores a machine from tables in its memory and migrates it N times.

The tables have either one device with COUNT events in an interrupt translation table of 65,536 places (`events`), or
COUNT devices without events in a flat device table of 8 pages, which has 65,536 places (`devices`). With `overlap` they
have such devices whose last two tables overlap. That machine can't be saved, so instead of migrations the script has N
saves, each of which is refused.

usage: make_migrations.py events|devices|overlap COUNT N
"""

import sys

MOST = 65536
MOST_MIGRATIONS = 63
# The most bytes that a line puts into memory.
LINE_BYTES = 4096

CONFIG = 0x80030000
PENDING = 0x80040000
DEVICES = 0x80100000
COLLECTIONS = 0x80200000
# 65,536 tables of 256 bytes each, or one of 65,536 entries of 8 bytes.
ITTS = 0x81000000
WINDOW = 0x2000000

LPIS = 65536 - 8192

DESCRIPTION = f"""vcpus 1
shards 4
window 0x80000000 {WINDOW:#x}
config {CONFIG:#x}
pending 0 {PENDING:#x}
"""

VALID = 1 << 63
# Both tables, with pages of 64 KiB: the devices have 8 of these.
BASER0 = 0x8107000000000207 | DEVICES
BASER1 = 0x8407000000000200 | COLLECTIONS


def filled(base, words):
    """The lines that put words into memory, from a base on."""
    places = LINE_BYTES // 8
    for first in range(0, len(words), places):
        some = words[first : first + places]
        bytes_of = b"".join(word.to_bytes(8, "little") for word in some)
        yield f"bytes {base + 8 * first:#x} {bytes_of.hex()}\n"


def device_entry(distance, itt, bits):
    return VALID | distance << 49 | itt >> 8 << 5 | bits - 1


def event_entry(distance, intid, collection):
    return distance << 48 | intid << 16 | collection


def distance(number, count):
    """How far the next one is, or 0 for the last."""
    return 1 if number + 1 < count else 0


def events(count):
    """The tables of one device with so many events."""
    yield from filled(DEVICES, [device_entry(0, ITTS, 16)])
    yield from filled(ITTS, [event_entry(distance(ev, count), 8192 + ev % LPIS, 1) for ev in range(count)])


def devices(count):
    """The table of so many devices of two events each, none of them mapped."""
    yield from filled(DEVICES, [device_entry(distance(dev, count), ITTS + 256 * dev, 1) for dev in range(count)])


def overlap(count):
    """The same, but the last device has the table of the one before it."""
    yield from devices(count - 1)
    last = count - 1
    yield from filled(DEVICES + 8 * last, [device_entry(0, ITTS + 256 * (last - 1), 1)])
    yield from filled(DEVICES + 8 * (last - 1), [device_entry(1, ITTS + 256 * (last - 1), 1)])


TABLES = {"events": events, "devices": devices, "overlap": overlap}


def script(tables, again):
    yield DESCRIPTION
    yield from tables
    # One collection, at the only processor.
    yield from filled(COLLECTIONS, [VALID | 1])
    yield f"restore 0 0 0 0 {BASER0:#x} {BASER1:#x}\n"
    yield "phase\nthread\nshow 0\n"
    yield from again
    yield "end\n"


def main():
    if len(sys.argv) != 4 or sys.argv[1] not in TABLES or not sys.argv[2].isdecimal() or not sys.argv[3].isdecimal():
        raise SystemExit(__doc__)
    count, migrations = int(sys.argv[2]), int(sys.argv[3])
    if not 2 <= count <= MOST or migrations > MOST_MIGRATIONS:
        raise SystemExit(__doc__)
    again = ["save\n" if sys.argv[1] == "overlap" else "migrate\n"] * migrations
    for lines in script(TABLES[sys.argv[1]](count), again):
        sys.stdout.write(lines)


if __name__ == "__main__":
    main()
