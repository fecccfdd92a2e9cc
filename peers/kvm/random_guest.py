"""A guest that does random things, right and wrong, with what a random seed gives.

It knows what is mapped, and steers around what KVM and `its` are known to answer otherwise (README.md, Named
differences): each place that does so says which.
"""
import random

import layout
from script import Script

SIZES = [1, 2, 3, 3, 4, 5]
WIDE_BITS = 14      # of the device whose events are INTIDs, for MAPI


class Device:
    def __init__(self, bits, itt):
        self.bits = bits
        self.itt = itt
        self.events = {}    # event: (intid, icid)


class Guest:
    def __init__(self, title, seed, shape, sharing=True, careful=True):
        self.careful = careful      # it steers around the differences
        self.sharing = sharing      # two events may have one LPI; KVM 7.3 refuses the second
        self.random = random.Random(seed)
        self.shape = shape
        self.script = Script(title, shape)
        self.devices = {}
        self.collections = {}       # icid: processor
        self.lost = set()           # events (device, event) whose collection was unmapped: KVM forgets it for good
        self.on = [False] * shape.processors
        self.enabled = False
        self.tables = 0             # how many interrupt translation tables were given out
        self.wide_tables = 0
        self.identifiers = [16, 17, 18, 19, 200, 8191]
        if shape.levels:
            self.identifiers += [8192 + 5, 65535]
        elif shape.device_pages > 1:
            self.identifiers += [8192, 8192 * shape.device_pages - 1]
        self.wide = 40              # the device of MAPI
        self.icids = [0, 1, 2, 3, 5, 77]

    # What is there.

    def events(self, wanted=lambda device, event, intid, icid: True):
        return [(d, e) for d, device in self.devices.items() for e, (intid, icid) in device.events.items()
                if wanted(d, e, intid, icid)]

    def users(self, intid):
        return self.events(lambda d, e, lpi, icid: lpi == intid)

    def of_collection(self, icid):
        return self.events(lambda d, e, lpi, of: of == icid)

    def target(self, icid):
        return self.collections.get(icid)

    def reaches(self, icid):
        """Whether the collection's events get somewhere."""
        return icid in self.collections and self.on[self.collections[icid]]

    def working(self):
        return [v for v in range(self.shape.processors) if self.on[v]]

    def chance(self, part):
        return self.random.random() < part

    def some_guest(self):
        """A processor whose guest does what follows, or userspace."""
        return self.random.randrange(self.shape.processors) if self.chance(0.15) else None

    # The start.

    def start(self):
        script, shape = self.script, self.shape
        for k, page in shape.level1().items():
            script.poke(layout.DEVICES + 8 * k, (layout.VALID | page).to_bytes(8, "little"))
        script.poke(layout.CONFIG, bytes(self.some_configuration() for _ in shape.lpis))
        for v in range(shape.processors):
            # KVM maps no event to a processor without a pending table.
            script.redistributor_write(v, layout.PENDBASER, shape.pendbaser(v))
            if v == 0 or self.chance(0.8):
                self.turn_on(v)
        script.write(layout.CBASER, shape.cbaser, self.some_guest())
        script.write(layout.BASER0, shape.baser0, self.some_guest())
        script.write(layout.BASER1, shape.baser1, self.some_guest())
        self.enable(True)
        for icid in self.icids[:4]:
            self.map_collection(icid, self.random.randrange(shape.processors))
        for device in self.identifiers[:4]:
            self.map_device(device)

    def some_configuration(self):
        return self.random.choice([0xA1, 0x81, 0x41, 0x49, 0x21, 0xF1, 0xA0, 0x40, 0xF9])

    def enable(self, on):
        self.script.write(layout.CTLR, int(on), self.some_guest())
        self.enabled = on
        if on:
            self.script.steps()

    def turn_on(self, v):
        script, guest = self.script, self.chance(0.3)
        if self.chance(0.8):
            script.redistributor_write(v, layout.PROPBASER, self.shape.propbaser, guest)
        else:
            script.redistributor_write(v, layout.PROPBASER, self.shape.propbaser)
        script.redistributor_write(v, layout.PENDBASER, self.shape.pendbaser(v, self.chance(0.3)), guest)
        script.redistributor_write(v, layout.GICR_CTLR, 1, guest)
        self.on[v] = True

    # Commands that are right.

    def run(self, name, *values):
        """A command, alone or with others that wait."""
        self.script.queue(name, *values)
        if self.script.waiting >= self.shape.places - 1 or self.chance(0.6):
            self.kick()

    def kick(self):
        if self.enabled:
            self.script.kick(self.some_guest())
        else:
            self.script.write(layout.CWRITER, 32 * self.script.place, self.some_guest())

    def settle(self):
        """All that waits in the queue has run."""
        if self.script.waiting:
            self.kick()

    def clear(self, events):
        """Nothing of these events is pending. KVM keeps or drops what is pending as an event goes, the standard the
        other; so before an event goes, or its target's LPIs, nothing is pending. KVM also keeps an LPI that was pending,
        with its processor, until that one is next inside."""
        if not self.careful:
            return
        for device, event in events:
            self.script.queue("clear", device, event)
            if self.script.waiting >= self.shape.places - 1:
                self.kick()
        self.settle()
        if events:
            self.script.operate("N")

    def map_device(self, d):
        self.forget_device(d)
        bits = WIDE_BITS if d == self.wide else self.random.choice(SIZES)
        if d == self.wide:
            itt = layout.WIDE_ITTS + layout.WIDE_LENGTH * (self.wide_tables % layout.WIDE_COUNT)
            self.wide_tables += 1
            self.script.zero(itt + 8 * self.shape.lpis[0], 8 * len(self.shape.lpis))
        else:
            itt = layout.ITTS + layout.ITT_LENGTH * (self.tables % layout.ITT_COUNT)
            self.tables += 1
        self.run("mapd", d, bits, itt)
        self.devices[d] = Device(bits, itt)

    def forget_device(self, d):
        """Before a MAPD that ends a device's events."""
        device = self.devices.pop(d, None)
        if device:
            self.clear([(d, e) for e in device.events])
            self.lost -= {(d, e) for e in device.events}

    def unmap_device(self, d):
        self.forget_device(d)
        self.run("unmapd", d)

    def map_collection(self, icid, v):
        """KVM doesn't give events back that a collection had before it was unmapped: their devices are mapped anew.
        It moves what is pending also to a processor whose LPIs are off: nothing is."""
        old = self.target(icid)
        if old is None:
            for d in {d for d, e in self.lost if self.devices[d].events[e][1] == icid}:
                self.map_device(d)
        elif old != v and not (self.on[old] and self.on[v]):
            self.clear(self.of_collection(icid))
        self.run("mapc", icid, v)
        self.collections[icid] = v
        if old not in (None, v) and not self.on[v]:
            # Until KVM's cache of translations is emptied, it sends to the processor all the same.
            self.run("unmapc", 4001)

    def unmap_collection(self, icid):
        """What is pending stays so in both, but a CLEAR of it is refused here alone: nothing is."""
        gone = self.of_collection(icid)
        self.clear(gone)
        self.run("unmapc", icid)
        self.collections.pop(icid, None)
        self.lost |= set(gone)

    def map_event(self, d, event, intid, icid, name="mapti"):
        """Two events of one LPI go by one collection: KVM has one processor for an LPI."""
        device = self.devices[d]
        self.run(name, d, event, *([intid] if name == "mapti" else []), icid)
        device.events.setdefault(event, (intid, icid))

    def map_some_event(self):
        d = self.random.choice(list(self.devices))
        icid = self.random.choice(self.icids)
        if d == self.wide:
            intid = self.random.choice(self.shape.lpis)
            event, name = intid, "mapi"
        else:
            intid, name = self.random.choice(self.shape.lpis), "mapti"
            event = self.random.randrange(1 << self.devices[d].bits)
        shared = {self.devices[x].events[y][1] for x, y in self.users(intid)}
        lost = any(user in self.lost for user in self.users(intid))
        if self.careful and (shared and not self.sharing or shared - {icid} or lost):
            return
        self.map_event(d, event, intid, icid, name)

    def move_event(self, d, event, icid):
        """All events of an LPI move together. KVM moves an event also from and to a processor whose LPIs are off."""
        intid, old = self.devices[d].events[event]
        ends = [self.target(old), self.target(icid)]
        if self.careful and None not in ends and not all(self.on[v] for v in ends):
            return
        for device, one in self.users(intid):
            self.script.queue("movi", device, one, icid)
            if None not in ends:
                self.devices[device].events[one] = intid, icid
        self.kick()

    def move_all(self, source, target):
        """After MOVALL the collections go along: until then KVM sends to the new processor, and here to the old one."""
        if self.careful and not (self.on[source] and self.on[target]):
            return
        self.settle()
        self.script.queue("movall", source, target)
        for icid in [icid for icid, v in self.collections.items() if v == source and self.careful]:
            self.script.queue("mapc", icid, target)
            self.collections[icid] = target
        self.kick()

    def discard(self, d, event):
        """KVM keeps what is pending, and refuses where the collection isn't mapped."""
        intid, icid = self.devices[d].events[event]
        if self.target(icid) is None:
            if self.careful:
                return
        self.clear([(d, event)])
        self.run("discard", d, event)
        self.lost.discard((d, event))
        del self.devices[d].events[event]

    def change_configuration(self):
        """KVM has one configuration of an LPI and reads it for more LPIs than it is asked: a change is read at once."""
        intid = self.random.choice(self.shape.lpis)
        self.settle()
        self.script.poke(layout.CONFIG + intid - 8192, bytes([self.some_configuration()]))
        users = self.users(intid)
        if not users:
            return
        d, event = self.random.choice(users)
        icid = self.devices[d].events[event][1]
        way = self.random.random()
        if way < 0.6 or self.target(icid) is None:
            self.run("inv", d, event)
        elif way < 0.8:
            self.run("invall", icid)
        else:
            for v in self.working():
                offset, value = (layout.INVLPIR, intid) if way < 0.9 else (layout.INVALLR, 0)
                self.script.redistributor_write(v, offset, value, True)
        self.settle()

    # LPIs and the translator, off and on.

    def turn(self, v):
        self.settle()
        if not self.on[v]:
            self.turn_on(v)
            return
        self.clear(self.events(lambda d, e, intid, icid: self.target(icid) == v))
        if self.careful:
            # An LPI that was cleared and moved stays with its old processor until that one is inside, and goes with it.
            self.script.operate("N")
        self.script.redistributor_write(v, layout.GICR_CTLR, 0, self.chance(0.7))
        self.script.redistributor_read(v, layout.GICR_CTLR)
        self.on[v] = False

    def rebase(self):
        """The bases are written with their own values, or both as not valid and then anew, where KVM unmaps too."""
        self.settle()
        again = self.chance(0.5)
        if not again:
            self.clear(self.events())
        self.enable(False)
        if not again:
            self.script.write(layout.BASER0, 0, self.some_guest())
            self.script.write(layout.BASER1, 0, self.some_guest())
            self.devices, self.collections, self.lost = {}, {}, set()
            self.empty_tables()
        self.script.write(layout.CBASER, self.shape.cbaser, self.some_guest())
        self.script.place = 0
        self.script.write(layout.BASER0, self.shape.baser0, self.some_guest())
        self.script.write(layout.BASER1, self.shape.baser1, self.some_guest())
        self.enable(True)

    def empty_tables(self):
        """As a guest has to before it gives tables. KVM leaves entries there of which it knows no more."""
        for d in [*self.identifiers, self.wide]:
            self.script.zero(self.shape.device_entry(d), 8)
        self.script.zero(layout.COLLECTIONS, 128)

    # What is seen.

    def stretches(self):
        """Entries of devices, and tables of those that are mapped, as far as they are used."""
        found = [(self.shape.device_entry(d), 8) for d in [*self.identifiers, self.wide]]
        for d, device in self.devices.items():
            start, count = (8192, len(self.shape.lpis)) if d == self.wide else (0, 1 << device.bits)
            found.append((device.itt + 8 * start, 8 * count))
        return found

    def go_on(self, script):
        """In another script, whose machine is restored from what this one saved."""
        self.script = script
        self.forget_pending()

    def find_collections(self):
        """No event is left that lost its collection."""
        for d in {d for d, e in self.lost}:
            self.map_device(d)
        self.settle()

    def look(self, forget=True):
        """A save, and what it wrote. KVM writes no entry for an event that lost its collection."""
        self.settle()
        whole = not self.lost
        self.script.save(whole)
        for v in self.working():
            self.script.see_pending(v, forget)
        if whole:
            self.script.check("words", *self.script.see_words(self.stretches()))
            self.script.check("collections", *self.script.see_words([(layout.COLLECTIONS, 128)]))
        return whole

    def forget_pending(self, wanted=lambda v: True):
        """Zeros in pending tables. KVM's save leaves old bits there, writes also where a processor's LPIs are off, and
        takes a bit from there as an event is mapped."""
        if not self.careful:
            return
        for v in filter(wanted, range(self.shape.processors)):
            self.script.zero(layout.pending_table(v) + self.shape.lpis[0] // 8, len(self.shape.lpis) // 8)

    def registers(self):
        """The translator's registers, in the order in which KVM's are restored, and each redistributor's."""
        script, shape = self.script, self.shape
        own = [(layout.CBASER, shape.cbaser), (layout.CREADR, 32 * script.place), (layout.CWRITER, 32 * script.place),
               (layout.BASER0, shape.baser0), (layout.BASER1, shape.baser1), (layout.CTLR, int(self.enabled))]
        theirs = [(shape.propbaser, shape.pendbaser(v), int(self.on[v])) for v in range(shape.processors)]
        return own, theirs

    def migrate(self):
        """Both are saved, and go on from that. No event may have lost its collection: KVM saves no entry for it."""
        self.settle()
        if self.lost or not self.careful:
            return
        self.forget_pending()
        self.look(forget=False)
        self.script.migrate()
        self.script.restart(*self.registers())
        self.forget_pending()
