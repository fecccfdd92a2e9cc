#!/usr/bin/env python3
"""Makes a round that fits nowhere smaller, as long as it fits nowhere still.

usage: shrink.py PROGRAM CONSOLE SEED

CONSOLE is a boot's console that threads.py kept with --save. What is left out is such that a history of the whole round
would be one of the rest too: an event with its signals, its commands, its pending LPI, and what was seen of its tables;
a look at memory; a save that nothing was looked at after; a message that was dropped, which changes nothing.
"""
import copy
import sys

import beside
import fit_text
import layout
from beside import Maps, Round
from threads import NOWHERE, read, tried

# The stretch in which a device's events show, once they are saved.
SHOWN = {beside.MOVED: beside.table(beside.MOVED), beside.NEW: beside.table(beside.NEW), beside.CARRIED: layout.COLLECTIONS}


class Part:
    """A round's calls with KVM's answers, of which some may be left out."""

    def __init__(self, round_, told, pending):
        self.round = round_
        self.told = told
        self.pending = pending

    def verdict(self, program):
        found, _ = fit_text.lines(self.round, self.told)
        return tried(program, self.round, found, self.pending)

    def without(self, gone, lpis=()):
        """The rest without some calls, each by its thread and its number there, and without some LPIs."""
        rest = copy.copy(self.round)
        rest.maps, rest.commands, rest.replies = Maps(), [], []
        rest.states = [rest.maps.copy()]
        rest.threads, told = [[], [], [], []], [[], [], [], []]
        commands = iter(self.round.commands)
        for thread, (calls, answers) in enumerate(zip(self.round.threads, self.told)):
            for i, (call, answer) in enumerate(zip(calls, answers)):
                command = next(commands) if call.kind == "kick" else None
                if (thread, i) in gone:
                    continue
                if command:
                    rest.command(*command)
                    call = copy.copy(call)
                    call.more = (32 * len(rest.commands),)
                rest.threads[thread].append(call)
                told[thread].append(answer)
        return Part(rest, told, [[lpi for lpi in of_one if lpi not in lpis] for of_one in self.pending])

    def calls(self):
        commands = iter(self.round.commands)
        for thread, (calls, answers) in enumerate(zip(self.round.threads, self.told)):
            for i, (call, answer) in enumerate(zip(calls, answers)):
                yield thread, i, call, answer, next(commands) if call.kind == "kick" else None

    def without_event(self, device, event):
        def is_of(call, command):
            if call.kind == "signal":
                return call.more == (device, event)
            if call.kind == "peek":
                return call.more[0] == SHOWN.get(device)
            if command and command[0] in ("mapd", "unmapd"):
                return command[1] == device
            if command and command[0] == "mapc":
                return device == beside.CARRIED and not others
            return command is not None and command[1:3] == (device, event)
        others = {(d, e) for d, e in self.round.hot if d == device and e != event}
        gone = {(thread, i) for thread, i, call, _, command in self.calls() if is_of(call, command)}
        rest = self.without(gone, {beside.lpi(device, event)})
        rest.round.hot = [pair for pair in self.round.hot if pair != (device, event)]
        return rest

    def smaller(self):
        """What may be tried next, the most left out first."""
        for device, event in self.round.hot:
            yield self.without_event(device, event)
        calls = list(self.calls())
        for n, (thread, i, call, answer, _) in enumerate(calls):
            following = calls[n + 1] if n + 1 < len(calls) else None
            seen_after = following and following[0] == thread and following[2].kind == "peek"
            dropped = call.kind == "signal" and answer.answer == 0
            if call.kind == "peek" or dropped or call.kind == "save" and not seen_after:
                yield self.without({(thread, i)})


def shrunk(part, program):
    for rest in part.smaller():
        if rest.verdict(program)[0] == NOWHERE:
            return shrunk(rest, program)
    return part


def main():
    program, console, seed = sys.argv[1], sys.argv[2], int(sys.argv[3])
    with open(console, errors="replace") as file:
        told, pending = read(file.read())[1][seed]
    part = Part(Round(seed), told, pending)
    verdict, _ = part.verdict(program)
    if verdict != NOWHERE:
        sys.exit(f"round {seed}: {verdict}")
    print(shrunk(part, program).verdict(program)[1][0], end="")


if __name__ == "__main__":
    main()
