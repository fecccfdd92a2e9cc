#!/usr/bin/env python3
"""KVM plays random scripts and saves; `its` and another KVM restore what was saved, and are compared.

usage: restore.py DIR PROGRAM [--kernel VERSION ..] [--seeds FIRST COUNT] [--steps N] [--from-kvm] [--keep DIR]
"""
import boot
import image
import steps
from compare import Comparison, Tally
from play import arguments, shares, some_shape, tell
from random_guest import Guest
from rounds import Restored, run_here
from script import Script


def save_there(seed, count, version):
    """A guest that steers around nothing, and what is seen then."""
    guest = Guest(f"saved-{seed}", seed, some_shape(seed), shares(version), careful=False)
    guest.start()
    steps.play(guest, count)
    guest.settle()
    guest.script.operate("Q", True)
    guest.script.operate("V", True)
    return guest.script, guest.script.see_machine()


def restore_both(saved, answers, seed, from_kvm):
    """The script in which both restore it; None where a kernel crashed."""
    script, seen = saved
    if len(answers) < script.answers:
        return None
    kept = image.from_kvm(script, answers, seen)
    return Restored(Script(f"restored-{seed}", script.shape, kept, from_kvm), kept)


def compare(restored, answers, given):
    """The tally of one machine that both restored."""
    tally = Tally()
    report = run_here(given.program, restored.script, answers, tally, given.keep)
    if report:
        tally.add(Comparison(restored.script, answers, report).run())
        if len(answers) == restored.script.answers:
            restored.compare(answers, report, tally, given.from_kvm)
    return tally


def main():
    parser = arguments(__doc__.splitlines()[0])
    parser.add_argument("--from-kvm", action="store_true", help="the scripts have the line from-kvm")
    given = parser.parse_args()
    seeds = range(given.seeds[0], sum(given.seeds))
    failed = False
    for version, kernel in boot.kernels(given.folder, given.kernel):
        saved = [save_there(seed, given.steps, version) for seed in seeds]
        told, answers, trouble = boot.play(given.folder, kernel, [script for script, _ in saved])
        restored = [restore_both(one, answer, seed, given.from_kvm) for one, answer, seed in zip(saved, answers, seeds)]
        whole = [one for one in restored if one]
        _, answers, more = boot.play(given.folder, kernel, [one.script for one in whole])
        tally = Tally()
        for one in boot.several(lambda *pair: compare(*pair, given), zip(whole, answers)):
            tally.add(one)
        tell(f"{version}: {told}: {len(saved)} saved, {len(whole)} restored", tally, trouble + more)
        failed = failed or bool(tally.others)
    return failed


if __name__ == "__main__":
    raise SystemExit(main())
