#!/usr/bin/env python3
"""A machine goes from KVM to `its` and on to KVM, three stages of random steps; both sides play each, and are compared.

usage: way.py DIR PROGRAM [--kernel VERSION ..] [--seeds FIRST COUNT] [--steps N] [--keep DIR]

The second stage goes on from what KVM saved at the end of the first, the third from what `its` saved at the end of the
second.
"""
import boot
import image
import steps
from compare import Comparison, Tally
from play import arguments, shares, some_shape, tell
from random_guest import Guest
from rounds import everything, run_here
from script import Script


class Traveller:
    """One seed's guest, with what was seen of it at the end of a stage."""

    def __init__(self, seed, version):
        self.seed = seed
        self.guest = Guest(f"way-{seed}-1", seed, some_shape(seed), shares(version))
        self.image = None
        self.tally = Tally()
        self.there = self.here = None

    def play(self, stage, count):
        guest = self.guest
        if stage == 1:
            guest.start()
        else:
            guest.go_on(Script(f"way-{self.seed}-{stage}", guest.shape, self.image))
        steps.play(guest, count)
        guest.find_collections()
        guest.forget_pending()
        for _ in range(10):
            steps.signal(guest)
        guest.look(forget=False)
        self.there = guest.script.see_machine()
        self.here = guest.script.see_here(everything(guest))

    def compare(self, stage, answers, program, keep):
        """Whether it can go on: the tally has what differs."""
        script = self.guest.script
        if len(answers) < script.answers:
            self.tally.differ(script, "KVM gave too few answers")
            return False
        report = run_here(program, script, answers, self.tally, keep)
        if report is None:
            return False
        self.tally.add(Comparison(script, answers, report).run())
        if stage == 1:
            self.image = image.from_kvm(script, answers, self.there)
        else:
            self.image = image.from_report(script, report, self.here)
        self.tally.counts["entries of collections that aren't mapped, moved"] += len(self.image.unmapped())
        return True


def main():
    given = arguments(__doc__.splitlines()[0]).parse_args()
    failed = False
    for version, kernel in boot.kernels(given.folder, given.kernel):
        everyone = [Traveller(seed, version) for seed in range(given.seeds[0], sum(given.seeds))]
        going, trouble = everyone, []
        for stage in (1, 2, 3):
            for one in going:
                one.play(stage, given.steps)
            told, answers, said = boot.play(given.folder, kernel, [one.guest.script for one in going])
            trouble += said
            goes = boot.several(lambda one, answer: one.compare(stage, answer, given.program, given.keep),
                                zip(going, answers))
            going = [one for one, on in zip(going, goes) if on]
        tally = Tally()
        for one in everyone:
            tally.add(one.tally)
        tell(f"{version}: {told}: {len(everyone)} machines, {len(going)} arrived", tally, trouble)
        failed = failed or bool(tally.others)
    return failed


if __name__ == "__main__":
    raise SystemExit(main())
