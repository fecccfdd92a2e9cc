"""The twelve commands: their words in scripts, and their 32 bytes."""
import struct

DEVICE, EVENT, INTID, ICID = (0, 32), (1, 0), (1, 32), (2, 0)
BITS, ITT, TARGET, SECOND = (1, 0), (2, 0), (2, 16), (3, 16)
COMMANDS = {
    "movi": (1, [DEVICE, EVENT, ICID]), "int": (3, [DEVICE, EVENT]), "clear": (4, [DEVICE, EVENT]),
    "sync": (5, [TARGET]), "mapd": (8, [DEVICE, BITS, ITT]), "unmapd": (8, [DEVICE]), "mapc": (9, [ICID, TARGET]),
    "unmapc": (9, [ICID]), "mapti": (10, [DEVICE, EVENT, INTID, ICID]), "mapi": (11, [DEVICE, EVENT, ICID]),
    "inv": (12, [DEVICE, EVENT]), "invall": (13, [ICID]), "movall": (14, [TARGET, SECOND]),
    "discard": (15, [DEVICE, EVENT]),
}


def encoded(name, *values):
    """The 32 bytes of a command; V is set in `mapd` and `mapc`."""
    opcode, fields = COMMANDS[name]
    words = [opcode, 0, 1 << 63 if name in ("mapd", "mapc") else 0, 0]
    for (word, low), value in zip(fields, values, strict=True):
        words[word] |= value - (1 if (word, low) == BITS and name == "mapd" else 0) << low
    return struct.pack("<4Q", *words)


def spelled(name, *values):
    return " ".join([name, *map(str, values)])
