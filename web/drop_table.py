#!/usr/bin/env python3
"""drop_table.py MODULE.wasm: takes out the table of functions where nothing is in it.

The linker writes one with 64-bit indices, which engines before 2025 don't read, though the module calls no function by
its number. Where one is called so, the module is left as it is.
"""
import sys

TABLE, ELEMENTS = 4, 9


def number(data, at):
    """A number in LEB128, and what follows it."""
    value = shift = 0
    while True:
        value |= (data[at] & 127) << shift
        shift += 7
        at += 1
        if data[at - 1] < 128:
            return value, at


def sections(data):
    """Each section with its kind."""
    at = 8
    while at < len(data):
        size, start = number(data, at + 1)
        yield data[at], data[at:start + size]
        at = start + size


def main():
    with open(sys.argv[1], "rb") as file:
        data = file.read()
    found = list(sections(data))
    if any(kind == ELEMENTS for kind, _ in found):
        return
    with open(sys.argv[1], "wb") as file:
        file.write(data[:8] + b"".join(section for kind, section in found if kind != TABLE))


main()
