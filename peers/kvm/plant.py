#!/usr/bin/env python3
"""Changes one thing that KVM answered in each round of some boots, and counts how often the round fits nowhere then.

usage: plant.py PROGRAM CONSOLE..

CONSOLE is a boot's console that threads.py kept with --save. Where a round fits still, another order explains the changed
answer as well: of a signal that went beside a command, say, or of an LPI beside a CLEAR. Left out are changes that leave
many choices of what KVM may have meant, since each choice is tried where none fits.
"""
import collections
import copy
import itertools
import random
import sys

import boot
import fit_text
import layout
from beside import PROCESSORS, Round
from threads import read, tried

MOST_TEXTS = 16     # inputs of `its fit` for one round


def pending_less(chance, _round, _told, pending):
    """An LPI that was pending isn't. The LPI, and the processor where it was."""
    held = [(lpi, v) for v, lpis in enumerate(pending) for lpi in lpis]
    if not held:
        return None
    lpi, v = chance.choice(held)
    pending[v].remove(lpi)
    return lpi, v


def pending_elsewhere(chance, round_, told, pending):
    """An LPI that was pending is pending at another processor."""
    gone = pending_less(chance, round_, told, pending)
    if gone:
        other = pending[(gone[1] + chance.randrange(1, PROCESSORS)) % PROCESSORS]
        other[:] = sorted({*other, gone[0]})
    return gone


def signal_otherwise(chance, round_, told, _pending):
    """A signal that was delivered was dropped, or the other way round."""
    one = chance.choice([one for calls, answers in zip(round_.threads, told) for call, one in zip(calls, answers)
                         if call.kind == "signal"])
    one.answer = 1 - one.answer
    return one


def seen_otherwise(chance, round_, told, _pending):
    """An entry that was saved has another collection, or another processor."""
    seen = [(call.more[0], one, i) for call, one in zip(round_.threads[3], told[3]) if call.kind == "peek"
            for i in range(0, 64, 8) if int(one.seen[2 * i:2 * i + 16], 16)]
    if not seen:
        return None
    address, one, i = chance.choice(seen)
    data = bytearray.fromhex(one.seen)
    data[i + (2 if address == layout.COLLECTIONS else 0)] ^= 1
    one.seen = data.hex()
    return one


KINDS = {"an LPI less is pending": pending_less, "an LPI is pending elsewhere": pending_elsewhere,
         "a signal is answered otherwise": signal_otherwise, "an entry is saved otherwise": seen_otherwise}


def planted(program, seed, told, pending):
    """The verdict on a round with each of the changes."""
    found = {}
    for kind, change in KINDS.items():
        round_, told_too, pending_too = Round(seed), copy.deepcopy(told), copy.deepcopy(pending)
        if not change(random.Random(f"{seed} {kind}"), round_, told_too, pending_too):
            continue
        lines, _ = fit_text.lines(round_, told_too)
        choices = len(list(itertools.islice(fit_text.texts(round_, lines, pending_too), MOST_TEXTS + 1)))
        found[kind] = tried(program, round_, lines, pending_too)[0] if choices <= MOST_TEXTS else "left out"
    return found


def main():
    program, rounds = sys.argv[1], {}
    for console in sys.argv[2:]:
        with open(console, errors="replace") as file:
            rounds |= read(file.read())[1]
    ended = boot.several(lambda seed: planted(program, seed, *rounds[seed]), [(seed,) for seed in rounds])
    counts = collections.Counter((kind, verdict) for found in ended for kind, verdict in found.items())
    for (kind, verdict), number in sorted(counts.items()):
        print(f"  {number:8} {kind}: {verdict}")


if __name__ == "__main__":
    main()
