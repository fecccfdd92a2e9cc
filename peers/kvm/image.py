"""What a migration takes along: the words of memory, and the registers. KVM's dumps make one, and so do peeks."""
import functools

import layout
import tables


class Image:
    def __init__(self, shape, words, registers, redistributors):
        self.shape = shape
        self.words = words                      # address: word, where it isn't zero
        self.registers = registers              # CBASER, CREADR, CWRITER, BASER0, BASER1, CTLR with their offsets
        self.redistributors = redistributors    # PROPBASER, PENDBASER, CTLR of each

    def description(self, from_kvm=False):
        """The lines of `its run` that restore it."""
        values = dict(self.registers)
        order = (layout.CTLR, layout.CBASER, layout.CREADR, layout.CWRITER, layout.BASER0, layout.BASER1)
        lines = ["restore " + " ".join(f"{values[offset]:#x}" for offset in order)]
        lines += ["from-kvm"] if from_kvm else []
        lines += [f"rrestore {v} {ctlr} {prop:#x} {pend:#x}"
                  for v, (prop, pend, ctlr) in enumerate(self.redistributors)]
        return lines + [f"word {address:#x} {word:#x}" for address, word in sorted(self.words.items())]

    def pokes(self):
        """The lines of KVM's side that write its memory, words that touch in one line."""
        lines, start, data = [], None, b""
        for address, word in sorted(self.words.items()):
            if start is None or address != start + len(data) or len(data) >= 2048:
                lines += [f"P {start:x} {data.hex()}"] if data else []
                start, data = address, b""
            data += word.to_bytes(8, "little")
        return lines + ([f"P {start:x} {data.hex()}"] if data else [])

    @functools.cached_property
    def maps(self):
        return tables.Maps(self.words, self.shape)

    def pending(self, v):
        """The INTIDs in use whose bit is set in the pending table of a processor."""
        table = layout.pending_table(v)
        return [intid for intid in self.shape.lpis
                if self.words.get(table + intid // 64 * 8, 0) >> intid % 64 & 1]

    def counts(self, v):
        """Those of them that KVM's restore takes: of the LPIs that it sends to this processor."""
        maps = self.maps
        return [intid for intid in self.pending(v) if maps.one_target(intid) == v]

    def led(self, v):
        """Those of them that some event leads to this processor: what counts with `from-kvm`."""
        maps = self.maps
        there = {intid for _, _, intid, icid in maps.all_events() if maps.target(icid) == v}
        return [intid for intid in self.pending(v) if intid in there]

    def unmapped(self):
        """The ICIDs that have an entry and aren't mapped."""
        return [icid for icid, target in self.maps.collections.items() if target == layout.UNMAPPED]

    def without_unmapped(self):
        """The same without their entries, which KVM wants at a restore where an event names them."""
        words = dict(self.words)
        for i in range(len(self.maps.collections)):
            del words[layout.COLLECTIONS + 8 * i]
        mapped = [(icid, target) for icid, target in self.maps.collections.items() if target != layout.UNMAPPED]
        for i, (icid, target) in enumerate(mapped):
            words[layout.COLLECTIONS + 8 * i] = layout.VALID | target << 16 | icid
        return Image(self.shape, words, self.registers, self.redistributors)

    def saved(self):
        """The words of all tables but those of pending LPIs."""
        found = [*self.stretches(), (layout.COLLECTIONS, 128)]
        return {address: self.words.get(address, 0)
                for start, length in found for address in range(start, start + length, 8)}

    def stretches(self):
        """Where tables stand: entries of devices, tables of events as far as they are used, collections."""
        maps = self.maps
        wide = 8 * self.shape.lpis[0], 8 * len(self.shape.lpis)
        found = [(address, 8) for address in maps.entries.values()]
        for itt, bits in maps.tables.values():
            found.append((itt + wide[0], wide[1]) if bits > 9 else (itt, 8 << bits))
        return found


def from_kvm(script, answers, registers):
    """The image of what KVM dumped and told last (Script.see_machine)."""
    dump, own, theirs = registers
    values = [(offset, answers[answer].number) for offset, answer in own]
    redistributors = []
    for of_one in theirs:
        halves = [answers[answer].number for answer in of_one]
        redistributors.append((halves[0] | halves[1] << 32, halves[2] | halves[3] << 32, halves[4] & 1))
    return Image(script.shape, dict(answers[dump].words), values, redistributors)


def from_report(script, report, calls):
    """The image of what `its` saved and was then asked (Script.see_here)."""
    peeks, own, theirs = calls

    def value(call):
        return int(report.replies[call].split()[1], 0)
    return Image(script.shape, report.words(peeks), [(offset, value(call)) for offset, call in own],
                 [(value(prop), value(pend), value(ctlr) & 1) for prop, pend, ctlr in theirs])
