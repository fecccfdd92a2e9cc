"""What the rounds of restores share: a machine that goes from one side to the other, and what must be the same then."""
import functools

import boot
import layout
import tables
from compare import Report
from image import Image

STALE = "pending bits of LPIs that no event sends to this processor: KVM leaves them, and reads none"
SECOND = "pending bits at the processor of an LPI's second event: KVM reads those of the first's alone"
SHARED = "two events of one LPI: KVM sends both to the processor of the first"
LOST = "an event's `next` leads to one that lost its collection, whose entry KVM writes as zero"
PASSED = "an event's `next` leads past the second event of an LPI: KVM 7.3 passes over it at a restore"
UNREACHED = "an entry of an earlier save that no walk reaches: KVM leaves it, here it is zero"
SAME = "signals to the same LPI and processor"
SAME_LATER = "the same, by collections that weren't mapped as the machine moved"


def same_but_next(one, other):
    """Whether two entries of events are the same but for `next`."""
    return (one ^ other) & (1 << 48) - 1 == 0


def pending_stretches(shape):
    return [(layout.pending_table(v) + shape.lpis[0] // 8, len(shape.lpis) // 8) for v in range(shape.processors)]


def everything(guest):
    """Where the guest's memory isn't zero."""
    shape = guest.shape
    found = [(layout.DEVICES, 64)] if shape.levels else []
    found += [(shape.device_entry(d), 8) for d in [*guest.identifiers, guest.wide]]
    found += [(layout.ITTS + layout.ITT_LENGTH * i, layout.ITT_LENGTH) for i in range(min(guest.tables, layout.ITT_COUNT))]
    found += [(layout.WIDE_ITTS + layout.WIDE_LENGTH * i + 8 * shape.lpis[0], 8 * len(shape.lpis))
              for i in range(min(guest.wide_tables, layout.WIDE_COUNT))]
    return found + [(layout.COLLECTIONS, 128), (layout.CONFIG, len(shape.lpis)), *pending_stretches(shape)]


class Restored:
    """A machine that was saved on one side and is restored on both: `script` has what both are asked then.

    With `again` KVM saves once more before the signals, and what it saves is seen.
    """

    def __init__(self, script, image, again=False):
        self.script = script
        self.image = image
        self.pending = script.see_pending_alone()
        self.again = None
        if again:
            script.operate("V", True)
            self.again = script.see_machine()
        script.call("save")
        self.tables = script.peeks(image.stretches())
        self.collections = script.peeks([(layout.COLLECTIONS, 128)])
        self.bits = script.peeks(pending_stretches(script.shape))
        self.signals = []
        for device, event, intid, _ in image.maps.all_events():
            self.signal_alone(device, event, intid, SAME)
        self.map_others()

    def map_others(self):
        """Collections that aren't mapped are now, and their events are signalled but those that share an LPI."""
        working = [v for v, (_, _, on) in enumerate(self.image.redistributors) if on]
        for icid in self.image.unmapped() if working else ():
            self.script.command("mapc", icid, working[icid % len(working)])
            for device, event, intid, of in self.image.maps.all_events():
                if of == icid and self.image.maps.is_alone(intid):
                    self.signal_alone(device, event, intid, SAME_LATER)

    def signal_alone(self, device, event, intid, kind):
        """A signal of an event whose LPI isn't pending, and what KVM then has pending."""
        script = self.script
        script.command("clear", device, event)
        first = self.image.maps.first_event(intid) == (device, event)
        answer, call = script.signal(device, event, "signal" if first else "signal_of_second")
        self.signals.append((kind, intid, answer, call, script.see_pending_alone()))

    def compare(self, answers, report, tally, from_kvm=False):
        self.compare_tables(report, tally)
        self.compare_pending(answers, report, tally, from_kvm)
        for signal in self.signals:
            self.compare_signal(answers, report, tally, *signal)

    def compare_tables(self, report, tally):
        """What `its` saves is what the image has."""
        self.compare_saved(report.words(self.tables), report.words(self.collections), tally)

    def compare_saved(self, ours, collections, tally):
        for start, length in self.image.stretches():
            for address in range(start, start + length, 8):
                self.compare_word(address, self.image.words.get(address, 0), ours.get(address, 0), tally)
        names = tables.collection_differences(tables.collections(self.image.words), tables.collections(collections))
        if names is None:
            tally.differ(self.script, "collections differ")
        else:
            tally.agree("collection tables")
            tally.named.update(names)

    def compare_word(self, address, theirs, ours, tally):
        if theirs == ours:
            if theirs:
                tally.agree("words of tables")
        elif ours == 0 and address not in self.reached:
            tally.named[UNREACHED] += 1
        elif same_but_next(theirs, ours) and address + 8 * (theirs >> 48) in self.seconds:
            tally.named[PASSED] += 1
        elif same_but_next(theirs, ours) and not self.image.words.get(address + 8 * (theirs >> 48), 0):
            tally.named[LOST] += 1
        else:
            tally.differ(self.script, f"word {address:#x} was {theirs:#x}, and is {ours:#x}")

    @functools.cached_property
    def seconds(self):
        """Where entries stand of events whose LPI an earlier event has."""
        maps = self.image.maps
        return {maps.tables[d][0] + 8 * e for d, e, intid, _ in maps.all_events() if maps.first_event(intid) != (d, e)}

    @functools.cached_property
    def reached(self):
        maps = self.image.maps
        return {maps.tables[d][0] + 8 * e for d, e, *_ in maps.all_events()} | set(maps.entries.values())

    def compare_pending(self, answers, report, tally, from_kvm):
        """KVM has what its restore counts; here all bits do, or with `from-kvm` those that some event leads there."""
        here = Image(self.image.shape, report.words(self.bits), [], [])
        for v, (_, _, on) in enumerate(self.image.redistributors):
            if not on:
                continue
            counts = self.image.counts(v)
            theirs, ours = answers[self.pending[v]].numbers, here.pending(v)
            wanted = self.image.led(v) if from_kvm else self.image.pending(v)
            if theirs != counts or ours != wanted:
                tally.differ(self.script, f"pending at {v}: KVM {theirs}, of {counts}; here {ours}, of {wanted}")
                continue
            tally.agree("pending tables")
            tally.counts["pending LPIs taken along"] += len(counts)
            tally.named[SECOND if from_kvm else STALE] += len(set(ours) - set(theirs))

    def first_target(self, intid):
        target = self.image.maps.one_target(intid)
        return [] if target is None else [target]

    def compare_signal(self, answers, report, tally, kind, intid, signal, call, pending):
        reply = report.replies[call].split()
        if reply[0] != "delivered" or answers[signal].number != 1:
            return
        where = [v for v, answer in enumerate(pending) if intid in answers[answer].numbers]
        if where == [int(reply[1])] and intid == int(reply[2]):
            tally.agree(kind)
        elif where == self.first_target(intid) and intid == int(reply[2]):
            tally.named[SHARED] += 1
        else:
            tally.differ(self.script, f"signal of LPI {intid}: KVM at {where}, here {reply}")


def run_here(program, script, answers, tally, keep=None):
    """The report of a script, or None."""
    text = script.script(answers)
    told, status = boot.run_its(program, text)
    if keep:
        with open(f"{keep}/{script.title}.its", "w") as file:
            file.write(text)
        with open(f"{keep}/{script.title}.report", "w") as file:
            file.write(told)
    if status:
        tally.differ(script, f"its ended with status {status}: {told.splitlines()[-1] if told else ''}")
        return None
    return Report(told)
