"""The 32 bytes of a command as a script's `command` line says them."""

NAMES = {1: "movi", 3: "int", 4: "clear", 5: "sync", 8: "mapd", 9: "mapc", 10: "mapti", 11: "mapi", 12: "inv",
         13: "invall", 14: "movall", 15: "discard"}
DEVICE, EVENT, INTID, ICID = (0, 32, 32), (1, 0, 32), (1, 32, 32), (2, 0, 16)
BITS, ITT, TARGET, SECOND = (1, 0, 5), (2, 8, 44), (2, 16, 36), (3, 16, 36)
FIELDS = {
    "movi": [DEVICE, EVENT, ICID], "int": [DEVICE, EVENT], "clear": [DEVICE, EVENT], "sync": [TARGET],
    "mapd": [DEVICE, BITS, ITT], "mapc": [ICID, TARGET], "mapti": [DEVICE, EVENT, INTID, ICID],
    "mapi": [DEVICE, EVENT, ICID], "inv": [DEVICE, EVENT], "invall": [ICID], "movall": [TARGET, SECOND],
    "discard": [DEVICE, EVENT], "unmapd": [DEVICE], "unmapc": [ICID],
}


def spelled(data):
    """The command's words, and whether the script's command line gives exactly these bytes."""
    words = [int.from_bytes(data[i:i + 8], "little") for i in range(0, 32, 8)]
    name = NAMES.get(words[0] & 0xFF)
    if name is None:
        return "unknown", False
    valid = words[2] >> 63
    left = [words[0] & ~0xFF] + words[1:]
    if name in ("mapd", "mapc"):
        name = name if valid else "un" + name
        left[2] &= ~(1 << 63)
    text = [name]
    for word, low, bits in FIELDS[name]:
        value = words[word] >> low & (1 << bits) - 1
        left[word] &= ~((1 << bits) - 1 << low)
        if (word, low, bits) == ITT:
            text.append(f"{value << 8:#x}")
        else:
            text.append(str(value + ((word, low, bits) == BITS)))
    return " ".join(text), not any(left)
