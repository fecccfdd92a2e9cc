#!/usr/bin/env python3
"""Plays random scripts on KVM and on `its`, and compares each answer.

usage: play.py DIR PROGRAM [--kernel VERSION ..] [--seeds FIRST COUNT] [--steps N] [--keep]
"""
import argparse
import random
import time

import boot
import steps
from compare import Comparison, Report, Tally
from layout import Shape
from random_guest import Guest


def some_shape(seed):
    """Sizes by the seed: processors, levels, pages, bits of LPIs."""
    pick = random.Random(seed * 7 + 1).choice
    return Shape(processors=pick([1, 2, 4, 4, 8]), levels=pick([False, True]), device_pages=pick([1, 1, 2, 4]),
                 collection_pages=pick([1, 1, 1, 2, 8]), queue_pages=pick([1, 1, 2, 4]), lpi_bits=pick([16, 16, 15, 14]))


def shares(version):
    """Whether this kernel maps a second event to an LPI."""
    return [int(part) for part in version.split(".")] < [7, 3]


def make(seed, count, version):
    guest = Guest(f"play-{seed}", seed, some_shape(seed), shares(version))
    guest.start()
    steps.play(guest, count)
    return guest.script


def compare(script, answers, program, keep):
    """The tally of one script."""
    if len(answers) < script.answers:
        return Comparison(script, answers, None).run()
    text = script.script(answers)
    report, status = boot.run_its(program, text)
    tally = Comparison(script, answers, Report(report)).run()
    if keep and (tally.others or status):
        with open(f"{keep}/{script.title}.its", "w") as file:
            file.write(text)
        with open(f"{keep}/{script.title}.report", "w") as file:
            file.write(report)
    return tally


def tell(title, tally, trouble):
    print(title)
    for kind, count in sorted(tally.counts.items()):
        print(f"  {count:8} {kind}")
    for name, count in sorted(tally.named.items()):
        print(f"  {count:8} named: {name}")
    print(f"  {len(tally.others):8} other differences")
    for line in tally.others[:20]:
        print(f"           {line}")
    for line in trouble[:12]:
        print(f"           console: {line}")


def arguments(description):
    parser = argparse.ArgumentParser(description=description)
    parser.add_argument("folder")
    parser.add_argument("program")
    parser.add_argument("--kernel", action="append", default=[])
    parser.add_argument("--seeds", nargs=2, type=int, default=[1, 10])
    parser.add_argument("--steps", type=int, default=400)
    parser.add_argument("--keep", help="a folder for scripts with a difference that has no name")
    return parser


def main():
    given = arguments(__doc__.splitlines()[0]).parse_args()
    first, count = given.seeds
    failed = False
    for version, kernel in boot.kernels(given.folder, given.kernel):
        scripts = [make(seed, given.steps, version) for seed in range(first, first + count)]
        begun = time.time()
        told, answers, trouble = boot.play(given.folder, kernel, scripts)
        middle = time.time()
        tally = Tally()
        for one in boot.several(lambda *pair: compare(*pair, given.program, given.keep), zip(scripts, answers)):
            tally.add(one)
        tell(f"{version}: {told}: {len(scripts)} scripts, KVM {middle - begun:.0f} s, its {time.time() - middle:.0f} s",
             tally, trouble)
        failed = failed or bool(tally.others or trouble)
    return failed


if __name__ == "__main__":
    raise SystemExit(main())
