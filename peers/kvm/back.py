#!/usr/bin/env python3
"""`its` plays random scripts and saves; KVM restores what was saved, is compared with `its`, and saves again; and `its`
restores that. Where entries of collections that aren't mapped were saved, KVM must refuse the same tables without them.

usage: back.py DIR PROGRAM [--kernel VERSION ..] [--seeds FIRST COUNT] [--steps N] [--keep DIR]
"""
import boot
import image
import steps
from compare import Comparison, Tally
from play import arguments, shares, some_shape, tell
from random_guest import Guest
from rounds import Restored, everything, run_here
from script import Script

EINVAL = 22


def save_here(seed, count, version, program, tally):
    """What `its` saves after random steps that steer around nothing."""
    guest = Guest(f"saved-{seed}", seed, some_shape(seed), shares(version), careful=False)
    guest.start()
    steps.play(guest, count)
    guest.settle()
    script = guest.script
    script.call("save")
    calls = script.see_here(everything(guest))
    report = run_here(program, script, Missing(), tally)
    return report and image.from_report(script, report, calls)


class Missing:
    """In place of KVM's answers, where it plays no part: nothing is acknowledged."""
    number = 1023

    def __getitem__(self, answer):
        return self


def read_back(program, one, answers, seed, tally, keep):
    """What KVM saved after the restore: the same as what it restored, and the same here."""
    again = image.from_kvm(one.script, answers, one.again)
    one.compare_saved(again.words, again.words, tally)
    tally.counts["machines whose tables KVM saved again byte for byte"] += one.image.saved() == again.saved()
    script = Script(f"again-{seed}", one.script.shape, again)
    here = Restored(script, again)
    report = run_here(program, script, Missing(), tally, keep)
    if report:
        here.compare_tables(report, tally)
        for v, (_, _, on) in enumerate(again.redistributors):
            found = image.Image(script.shape, report.words(here.bits), [], [])
            if on and found.pending(v) != one.image.counts(v):
                tally.differ(script, f"pending at {v}: {found.pending(v)}, of {one.image.counts(v)}")


def compare(given, seed, one, answers):
    """The tally of one machine that KVM restored and saved again."""
    tally = Tally()
    report = run_here(given.program, one.script, answers, tally, given.keep)
    if report:
        tally.add(Comparison(one.script, answers, report).run())
        if len(answers) == one.script.answers:
            one.compare(answers, report, tally)
            read_back(given.program, one, answers, seed, tally, given.keep)
    return tally


def restore_there(given, version, kernel, seeds, tally):
    saved = boot.several(lambda seed: (seed, save_here(seed, given.steps, version, given.program, tally)),
                         [(seed,) for seed in seeds])
    kept = {seed: one for seed, one in saved if one}
    lacking = [Script(f"lacking-{seed}", one.shape, one.without_unmapped()) for seed, one in kept.items()
               if one.unmapped()]
    restored = {seed: Restored(Script(f"back-{seed}", one.shape, one), one, True) for seed, one in kept.items()}
    told, answers, trouble = boot.play(given.folder, kernel, lacking + [one.script for one in restored.values()])
    for script, answer in zip(lacking, answers):
        if answer and answer[0].number == EINVAL:
            tally.agree("tables without the entries of collections that aren't mapped, which KVM refuses")
        else:
            tally.differ(script, "KVM restores it without an entry")
    pieces = [(given, seed, one, answer) for (seed, one), answer in zip(restored.items(), answers[len(lacking):])]
    for one in boot.several(compare, pieces):
        tally.add(one)
    tally.counts["entries of collections that aren't mapped"] += sum(len(one.unmapped()) for one in kept.values())
    tell(f"{version}: {told}: {len(kept)} saved here, {len(lacking)} with collections that aren't mapped", tally, trouble)


def main():
    given = arguments(__doc__.splitlines()[0]).parse_args()
    failed = False
    for version, kernel in boot.kernels(given.folder, given.kernel):
        tally = Tally()
        restore_there(given, version, kernel, range(given.seeds[0], sum(given.seeds)), tally)
        failed = failed or bool(tally.others)
    return failed


if __name__ == "__main__":
    raise SystemExit(main())
