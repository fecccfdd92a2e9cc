#!/usr/bin/env python3
"""Four threads make calls of KVM beside each other, in a thousand short rounds of one boot; `its fit` says of each
whether some order of the calls, by one definition and by their times, explains what KVM answered.

usage: threads.py DIR PROGRAM [--kernel VERSION ..] [--seeds FIRST COUNT] [--keep DIR] [--save CONSOLES] [--no-fit]
"""
import argparse
import collections
import os
import time

import boot
import fit_text
from beside import Round
from fit_text import Strange, Told
from script import Script

FITS, NOWHERE, UNDECIDED = "fits", "fits nowhere", "undecided"


def operations(round_):
    """The lines of player.c for one round."""
    script = Script(f"round-{round_.seed}", round_.shape, round_.image())
    if round_.by_guest:
        script.operate("w 0 4 8080004 0")   # its first time inside; a write of GITS_IIDR is lost
    for thread, calls in enumerate(round_.threads):
        for call in calls:
            script.operate(f"F {thread:x} {call.wait:x} {call.operation}")
    script.operate("H")
    script.see_pending_alone()
    return script.operations


def read(said):
    """The kernel, what each round's threads and pending tables said by its seed, and lines of trouble."""
    kernel, rounds, trouble, now = "", {}, [], None
    for line in said.replace("\r", "").split("\n"):
        fields = line.split()
        if line.startswith("T round-"):
            now = rounds.setdefault(int(line.split("-")[1]), ([[], [], [], []], []))
        elif fields[:1] == ["F"] and now:
            begin, end, answer = int(fields[2], 16), int(fields[3], 16), int(fields[4])
            now[0][int(fields[1])].append(Told(begin, end, answer, *fields[5:]))
        elif fields[:1] == ["B"] and now:
            now[1].append([int(field, 16) for field in fields[1:]])
        elif line.startswith("# ") and not kernel:
            kernel = line[2:]
        elif fields and fields[0] not in ("X", "Q", "#") and "Power down" not in line:
            trouble.append(line)
    return kernel, rounds, trouble


def tried(program, round_, found, pending):
    """The verdict on the lines of a round, and the texts that were tried: one for each choice of what KVM may have meant,
    until one fits."""
    texts, verdict = [], NOWHERE
    for text in fit_text.texts(round_, found, pending):
        texts.append(text)
        said, status = boot.run_its(program, text, "fit")
        if status == 0:
            return FITS, texts
        if status != 10:
            verdict = UNDECIDED if status == 12 else f"strange: status {status}, {said.splitlines()[:1]}"
    return verdict, texts


def one(seed, told, pending, given):
    """The verdict on a round, the texts that were tried, and what is to be counted."""
    round_ = Round(seed)
    counts = collections.Counter()
    try:
        found, counts["saves answered EBUSY"] = fit_text.lines(round_, told)
    except (Strange, ValueError) as strange:
        return f"strange: {strange}", [], counts
    for kind in ("signal", "write", "step", "save", "peek"):
        counts[kind] = sum(line.call.split()[0] == kind for of_thread in found for line in of_thread)
    counts += fit_text.beside(round_, told)
    counts["signals with several answers that KVM may have meant"] = sum(
        len(line.replies) > 1 for of_thread in found for line in of_thread)
    if given.no_fit:
        return "not tried", [next(fit_text.texts(round_, found, pending))], counts
    verdict, texts = tried(given.program, round_, found, pending)
    counts["texts"] = len(texts)
    return verdict, texts, counts


def keep(folder, version, seed, verdict, texts):
    """The texts of a round that doesn't fit."""
    if folder and verdict != FITS:
        os.makedirs(folder, exist_ok=True)
        for i, text in enumerate(texts):
            with open(f"{folder}/{version}-{seed}{f'-{i}' if i else ''}.fit", "w") as file:
                file.write(text)


def console(given, version, kernel):
    """What a boot says: of this kernel and these seeds, or of an earlier one that was kept."""
    kept = given.save and f"{given.save}/{version}-{given.seeds[0]}-{given.seeds[1]}.console"
    if kept and os.path.isfile(kept):
        with open(kept, errors="replace") as file:
            return file.read(), 0
    lines = [line for seed in range(given.seeds[0], sum(given.seeds)) for line in operations(Round(seed))]
    said, status = boot.run_qemu(given.folder, kernel, "\n".join([*lines, ""]), given.seconds, boot.THREADS)
    if kept and not status:
        os.makedirs(given.save, exist_ok=True)
        with open(kept, "w") as file:
            file.write(said)
    return said, status


def tell(version, kernel, rounds, verdicts, counts, trouble):
    print(f"{version}: {kernel}: {len(rounds)} rounds")
    for verdict, number in sorted(verdicts.items()):
        print(f"  {number:8} {verdict}")
    for what, number in sorted(counts.items()):
        print(f"  {number:8} {what}")
    for line in trouble[:12]:
        print(f"           console: {line}")


def main():
    parser = argparse.ArgumentParser(description=__doc__.splitlines()[0])
    parser.add_argument("folder")
    parser.add_argument("program")
    parser.add_argument("--kernel", action="append", default=[])
    parser.add_argument("--seeds", nargs=2, type=int, default=[1, 1000])
    parser.add_argument("--keep", help="a folder for rounds that don't fit")
    parser.add_argument("--save", help="a folder for what KVM answered; a later run takes it from there")
    parser.add_argument("--seconds", type=int, default=3600, help="how long a boot may take")
    parser.add_argument("--no-fit", action="store_true", help="`its fit` isn't run")
    given = parser.parse_args()
    failed = False
    for version, kernel in boot.kernels(given.folder, given.kernel):
        begun = time.time()
        said, status = console(given, version, kernel)
        name, rounds, trouble = read(said)
        trouble += [f"QEMU ended with status {status}"] if status else []
        trouble += [] if len(rounds) == given.seeds[1] else ["some rounds aren't told"]
        print(f"{version}: KVM {time.time() - begun:.0f} s")
        ended = boot.several(lambda seed: (seed, *one(seed, *rounds[seed], given)), [(seed,) for seed in rounds])
        verdicts, counts = collections.Counter(), collections.Counter()
        for seed, verdict, texts, more in ended:
            verdicts[verdict] += 1
            counts += more
            keep(given.keep, version, seed, verdict, texts)
        tell(version, name, rounds, verdicts, counts, trouble)
        failed = failed or bool(trouble) or set(verdicts) != {FITS}
    return failed


if __name__ == "__main__":
    raise SystemExit(main())
