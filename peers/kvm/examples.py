#!/usr/bin/env python3
"""Makes the short recordings that stand in examples/: what one kernel answered, as scripts with their reports.

usage: examples.py DIR PROGRAM OUT [--kernel VERSION]

kvm_random is a short random script, and kvm_saved a machine that KVM saved and `its` restores.
"""
import argparse

import boot
import image
import layout
import steps
from compare import Comparison, Tally
from layout import Shape
from play import tell
from random_guest import Guest
from rounds import Restored, run_here
from script import Script
from small import Small


def random_script():
    guest = Guest("kvm_random", 7, Shape(processors=2, levels=True))
    guest.start()
    steps.play(guest, 60)
    return guest.script


def saved_machine():
    """An event of a collection that was never mapped, one that is pending, and one that was pending elsewhere."""
    s = Small("kvm_saved")
    s.event(0, 8200, 1)
    s.event(1, 8210, 2)
    s.event(2, 8220, 5)
    s.signal(16, 0)
    s.signal(16, 1)
    s.operate("Q", True)
    s.command("clear", 16, 1)
    s.command("movi", 16, 1, 3)
    s.operate("Q", True)
    s.operate("V", True)
    return s, s.see_machine()


def restored_script(script, answers, seen):
    kept = image.from_kvm(script, answers, seen)
    kept.words = {address: word for address, word in kept.words.items()
                  if not layout.QUEUE <= address < layout.CONFIG}    # commands that have run
    return Restored(Script("kvm_saved", script.shape, kept, True), kept)


def main():
    parser = argparse.ArgumentParser(description=__doc__.splitlines()[0])
    parser.add_argument("folder")
    parser.add_argument("program")
    parser.add_argument("out")
    parser.add_argument("--kernel", default="6.12.118")
    given = parser.parse_args()
    (version, kernel), = boot.kernels(given.folder, [given.kernel])
    script, seen = saved_machine()
    played = random_script()
    told, answers, trouble = boot.play(given.folder, kernel, [script, played])
    restored = restored_script(script, answers[0], seen)
    _, again, more = boot.play(given.folder, kernel, [restored.script])
    tally = Tally()
    for one, answer in ((played, answers[1]), (restored.script, again[0])):
        report = run_here(given.program, one, answer, tally, given.out)
        tally.add(Comparison(one, answer, report).run())
        if one is restored.script:
            restored.compare(answer, report, tally, True)
    tell(f"{version}: {told}", tally, trouble + more)
    return bool(tally.others)


if __name__ == "__main__":
    raise SystemExit(main())
