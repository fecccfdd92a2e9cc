#!/usr/bin/env python3
"""Tries `its fit` on reports whose places were taken out, and times made around them.

Runs a script as that of `its gen N T`, in which T threads signal while one moves events. From the report it takes each
call's place, and makes two times around it, narrow or wide, such that a thread's calls don't overlap. As they are they
must fit. Spoiled they must fit nowhere: with a reply of another LPI, with one that a command had ended the translation of
before the message was sent, or with an LPI that isn't pending any more.

usage: fit_reports.py PROGRAM [--signals N] [--threads T] [--seeds COUNT] [--widths W ..] [--spoil]

A time is in tenths of a place: with W 4 no two calls overlap, with W 40 a call overlaps those of other threads that stand
up to eight places away.
"""
import argparse
import collections
import random
import subprocess
import sys
import time

QUEUE, PLACES = 0x80020000, 128
DESCRIPTION = ["vcpus 4", "shards 16", "window 0x80000000 0x200000", "config 0x80030000",
               *(f"pending {v} {0x80040000 + 0x10000 * v:#x}" for v in range(4))]
REGISTERS = ["write 0x100 8 0x8107000080000200", "write 0x108 8 0x8407000080010200", "write 0x80 8 0x8000000080020000",
             "write 0x0 4 1"]


class Call:
    def __init__(self, place, thread, call, reply):
        self.place = place
        self.thread = thread
        self.call = call
        self.reply = reply


def commands(first, wanted):
    """The calls that queue commands and take them, of which the first is counted on."""
    for k, command in enumerate(wanted, first):
        yield f"command {QUEUE + 32 * (k % PLACES):#x} {command}"
        yield f"write 0x88 8 {32 * ((k + 1) % PLACES)}"
        yield "step"


def script(signals, threads):
    """The script of `its gen`, in one leg."""
    first = [f"mapc {c} {c}" for c in range(4)]
    for device in range(1, threads + 1):
        first.append(f"mapd {device} 6 {0x800C0000 + 0x200 * (device - 1):#x}")
        first += [f"mapti {device} {e} {8192 + 64 * (device - 1) + e} {e % 4}" for e in range(64)]
    lines = [*DESCRIPTION, "phase", "thread", *REGISTERS, *commands(0, first), "phase"]
    for device in range(1, threads + 1):
        lines += ["thread", *(f"signal {device} {i % 64}" for i in range(signals))]
    moves = [f"movi {1 + j % threads} {j % 64} 0" for j in range(signals // 10)]
    return "\n".join([*lines, "thread", *commands(len(first), moves), "end", ""])


def run(program, word, text):
    ended = subprocess.run([program, word], input=text.encode(), stdout=subprocess.PIPE, check=False)
    return ended.stdout.decode(), ended.returncode


def read(report):
    """The calls of a report by place, each with its thread of one phase, and what is pending."""
    calls, pending = [], []
    for line in report.splitlines():
        if line.startswith("vcpu "):
            pending.append(line)
        elif line[0].isdigit():
            place, seat, text = line.split(" ", 2)
            phase, thread = map(int, seat.split("."))
            calls.append(Call(int(place), thread + phase - 1, *text.split(" -> ")))
    return calls, pending


def spans(calls, width, pick):
    """Two times around each call's place, such that a thread's calls follow one another."""
    of_thread = collections.defaultdict(list)
    for call in calls:
        of_thread[call.thread].append(call)
    found = {}
    for own in of_thread.values():
        free = 0
        for call, following in zip(own, [*own[1:], None]):
            at = 10 * (call.place + 1)
            latest = 10 * (following.place + 1) if following else at + width
            end = min(at + pick.randint(0, width), pick.randint(at, latest))
            found[call.place] = (max(free, at - pick.randint(0, width)), end)
            free = end
    return found


def text(calls, pending, times):
    threads = max(call.thread for call in calls)
    lines, trace = [*DESCRIPTION, "phase"], []
    for thread in range(1, threads + 1):
        lines.append("thread")
        for call in calls:
            if call.thread == thread:
                lines.append(call.call)
                begin, end = times[call.place]
                trace.append(f"1.{thread} {begin} {end} {call.call} -> {call.reply}")
    return "\n".join([*lines, "end", "trace", *trace, *pending, ""])


def stale(calls, times, pick):
    """A message that began after its event went to collection 0, with the reply of before."""
    old, gone = {}, []
    for call in calls:
        words = call.call.split()
        if words[0] == "signal":
            event, now = tuple(words[1:]), call.reply
            was = old.setdefault(event, (now, times[call.place][1]))
            if was[0] != now and times[call.place][0] > was[1]:
                gone.append((call, was[0]))
    return pick.choice(gone) if gone else None


def moved_before(calls, times, spoiled):
    """Whether some MOVI of the message's event had returned before it began, and none that didn't runs after."""
    _, device, event = spoiled.call.split()
    moves = [call for call in calls if call.call == "step" and call.thread > 1]
    made = [call for call in calls if call.call.startswith("poke") and call.thread > 1]
    for poke, step in zip(made, moves):
        data = bytes.fromhex(poke.call.split()[2])
        if (data[0] == 1 and int.from_bytes(data[4:8], "little") == int(device)
                and int.from_bytes(data[8:12], "little") == int(event)):
            return times[step.place][1] < times[spoiled.place][0]
    return False


def spoiled(kind, calls, pending, times, pick):
    """The same with one thing wrong, or None where it can't be had."""
    calls = [Call(call.place, call.thread, call.call, call.reply) for call in calls]
    signals = [call for call in calls if call.call.startswith("signal")]
    if kind == "another LPI":
        one = pick.choice(signals)
        word, vcpu, intid = one.reply.split()
        one.reply = f"{word} {vcpu} {int(intid) + 1}"
    elif kind == "a translation that had ended":
        found = stale(calls, times, pick)
        if not found or not moved_before(calls, times, found[0]):
            return None
        found[0].reply = found[1]
    else:
        full = [i for i, line in enumerate(pending) if not line.endswith("none")]
        i = pick.choice(full)
        words = pending[i].split()
        del words[pick.randrange(3, len(words))]
        pending = [*pending[:i], " ".join(words if len(words) > 3 else [*words, "none"]), *pending[i + 1:]]
    return text(calls, pending, times)


KINDS = ("another LPI", "a translation that had ended", "an LPI that isn't pending any more")


def main():
    parser = argparse.ArgumentParser(description=__doc__.splitlines()[0])
    parser.add_argument("program")
    parser.add_argument("--signals", type=int, default=100, help="of each thread")
    parser.add_argument("--threads", type=int, default=3)
    parser.add_argument("--seeds", type=int, default=5)
    parser.add_argument("--widths", type=int, nargs="+", default=[0, 4, 40, 400])
    parser.add_argument("--spoil", action="store_true")
    given = parser.parse_args()
    report, status = run(given.program, "run", script(given.signals, given.threads))
    if status:
        sys.exit(report)
    calls, pending = read(report)
    failed = False
    for width in given.widths:
        verdicts = collections.Counter()
        longest = 0
        for seed in range(given.seeds):
            pick = random.Random(seed)
            times = spans(calls, width, pick)
            tried = [("as it is", 0, text(calls, pending, times))]
            if given.spoil:
                tried += [(kind, 10, spoiled(kind, calls, pending, times, pick)) for kind in KINDS]
            for kind, wanted, one in tried:
                if one is None:
                    continue
                begun = time.time()
                _, status = run(given.program, "fit", one)
                longest = max(longest, time.time() - begun)
                verdicts[kind, status] += 1
                failed = failed or status != wanted
        print(f"width {width}: {len(calls)} calls of {max(call.thread for call in calls)} threads, "
              f"the longest {longest:.2f} s")
        for (kind, status), count in sorted(verdicts.items()):
            print(f"  {count:6} {kind}: status {status}")
    return failed


if __name__ == "__main__":
    raise SystemExit(main())
