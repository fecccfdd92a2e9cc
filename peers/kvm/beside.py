"""A round of at most 40 calls that four threads make beside each other: two signal, one makes commands, one saves.

The machine begins from tables that both sides restore, and the commands stand in the queue from the start. What maps
answer is changed by the thread of commands alone. So it is known which commands run, and what a signal may be answered
that went beside some of them. The events are such that none of the named differences comes to pass:

  GONE    events that DISCARD unmaps and MAPTI maps again; their LPIs aren't enabled, so KVM forgets them with the event
  MOVED   events that MOVI sends elsewhere
  LOST    a device that MAPD unmaps, with an event of an enabled LPI, which stays pending on both sides
  NEW     events that MAPTI maps, one after another
  CARRIED events of a collection that MAPC sends elsewhere
"""
import random

import layout
from commands import encoded
from image import Image

GONE, MOVED, LOST, NEW, CARRIED = 16, 17, 18, 19, 20
DEVICES = (GONE, MOVED, LOST, NEW, CARRIED)
EVENTS, BITS, SHARED = 4, 3, 4      # events of a device; its EventID bits; the collection that MAPC sends elsewhere
SIGNALS, SAVES, COMMANDS = 8, 3, 6  # at most, of a thread
MOST = 40                           # calls of a round
PROCESSORS = 4
ITS_FRAME = 0x08080000


def table(device):
    return layout.ITTS + layout.ITT_LENGTH * (device - GONE)


def lpi(device, event):
    return 8192 + EVENTS * (device - GONE) + event


def home(device, event):
    """The collection of an event as it is mapped first."""
    return SHARED if device == CARRIED else event % PROCESSORS


def events(device):
    return range(1 if device == LOST else EVENTS)


class Maps:
    """What is mapped, as the thread of commands goes on."""

    def __init__(self):
        self.devices = set(DEVICES)
        self.events = {(d, e): home(d, e) for d in DEVICES if d != NEW for e in events(d)}
        self.targets = {icid: icid % PROCESSORS for icid in range(SHARED + 1)}

    def copy(self):
        other = Maps()
        other.devices, other.events, other.targets = set(self.devices), dict(self.events), dict(self.targets)
        return other

    def answer(self, device, event):
        """What a signal is answered."""
        if device not in self.devices:
            return "dropped no-device"
        if (device, event) not in self.events:
            return "dropped no-event"
        return f"delivered {self.targets[self.events[device, event]]} {lpi(device, event)}"

    def run(self, name, *values):
        """The reply of a step that takes this command."""
        where = values[:2]
        if name in ("movi", "int", "clear", "discard", "mapti") and values[0] not in self.devices:
            return f"refused {name} no-device"
        if name in ("movi", "int", "clear", "discard") and where not in self.events:
            return f"refused {name} no-event"
        if name == "movi":
            self.events[where] = values[2]
        elif name == "mapti":
            self.events.setdefault(where, values[3])
        elif name == "discard":
            del self.events[where]
        elif name == "mapc":
            self.targets[values[0]] = values[1]
        elif name in ("mapd", "unmapd"):
            self.events = {key: icid for key, icid in self.events.items() if key[0] != values[0]}
            (self.devices.add if name == "mapd" else self.devices.discard)(values[0])
        return f"ran {name.removeprefix('un')}"


class Call:
    """A call that a thread makes of KVM: an operation of threads.c, and what it is here."""

    def __init__(self, kind, wait, operation, *more):
        self.kind = kind
        self.wait = wait
        self.operation = operation
        self.more = more


class Round:
    def __init__(self, seed):
        self.seed = seed
        self.random = random.Random(seed)
        self.shape = layout.Shape(processors=PROCESSORS)
        self.by_guest = self.random.random() < 0.5
        self.maps = Maps()
        self.states = [self.maps.copy()]    # before each command, and after the last
        self.commands, self.replies = [], []
        self.slow = self.random.choice([100, 600, 2000, 6000])    # ticks, of 16 ns in QEMU
        self.enabled = {lpi(d, e): d == LOST or d != GONE and self.random.random() < 0.5 for d in DEVICES
                        for e in events(d)}
        kinds = self.random.sample(DEVICES, self.random.choice([1, 1, 2, 3]))
        self.hot = [(d, e) for d in kinds for e in self.random.sample(list(events(d)), 1 if d == LOST else 2)]
        self.threads = [self.signals(), self.signals(), self.kicks(), self.saves()]
        while self.count() > MOST:
            max(self.threads[:2], key=len).pop()

    def wait(self):
        return self.random.randrange(self.slow)

    def count(self):
        """The calls of the script: a kick is a write and a step."""
        return sum(2 if call.kind == "kick" else 1 for calls in self.threads for call in calls)

    def signals(self):
        return [Call("signal", self.wait(), f"S {device:x} {event:x}", device, event)
                for device, event in (self.random.choice(self.hot) for _ in range(self.random.randint(3, SIGNALS)))]

    def command(self, name, *values):
        self.commands.append((name, *values))
        self.replies.append(self.maps.run(name, *values))
        self.states.append(self.maps.copy())

    def one_command(self):
        pick = self.random.choice
        device, event = pick(self.hot)
        special = self.random.random() < 0.7
        if special and device == MOVED:
            self.command("movi", device, event, self.random.randrange(PROCESSORS))
        elif special and device == CARRIED:
            self.command("mapc", SHARED, self.random.randrange(PROCESSORS))
        elif special and device == GONE and (device, event) in self.maps.events:
            self.command("discard", device, event)
        elif special and device == LOST and device not in self.maps.devices:
            self.command("mapd", device, BITS, table(device))
        elif special and device == LOST and (device, event) in self.maps.events:
            self.command("unmapd", device)
        elif special or device == NEW and self.random.random() < 0.5:
            self.command("mapti", device, event, lpi(device, event), home(device, event))
        else:
            self.command(pick(["int", "clear", "clear"]), device, event)

    def kicks(self):
        """Writes of GITS_CWRITER, each with one command to take."""
        found = []
        for _ in range(self.random.randint(2, COMMANDS)):
            self.one_command()
            end = 32 * len(self.commands)
            operation = (f"w 0 {ITS_FRAME + layout.CWRITER:x} {end:x}" if self.by_guest
                         else f"W {layout.CWRITER:x} {end:x}")
            found.append(Call("kick", self.wait(), operation, end))
        return found

    def saves(self):
        found = []
        for _ in range(self.random.randint(1, SAVES)):
            found.append(Call("save", self.wait(), "V"))
            for address in self.random.sample([table(MOVED), table(NEW), layout.COLLECTIONS], 2):
                found.append(Call("peek", 0, f"L {address:x}", address))
        return found

    def words(self):
        """The machine's memory as it begins: tables, configurations, the queue with every command."""
        found = {}
        for i, device in enumerate(DEVICES):
            following = 1 if i + 1 < len(DEVICES) else 0
            found[layout.DEVICES + 8 * device] = layout.VALID | following << 49 | table(device) >> 8 << 5 | BITS - 1
            for event in events(device) if device != NEW else ():
                last = event == events(device)[-1]
                found[table(device) + 8 * event] = (0 if last else 1 << 48) | lpi(device, event) << 16 | home(device, event)
        for icid in range(SHARED + 1):
            found[layout.COLLECTIONS + 8 * icid] = layout.VALID | icid % PROCESSORS << 16 | icid
        configurations = bytes(0xA0 | self.enabled.get(8192 + i, 0) for i in range(24))
        for at, data in [(layout.CONFIG, configurations),
                         (layout.QUEUE, b"".join(encoded(*command) for command in self.commands))]:
            found |= {at + i: int.from_bytes(data[i:i + 8], "little") for i in range(0, len(data), 8)}
        return {address: word for address, word in found.items() if word}

    def image(self):
        shape = self.shape
        registers = [(layout.CBASER, shape.cbaser), (layout.CREADR, 0), (layout.CWRITER, 0),
                     (layout.BASER0, shape.baser0), (layout.BASER1, shape.baser1), (layout.CTLR, 1)]
        return Image(shape, self.words(), registers, [(shape.propbaser, shape.pendbaser(v), 1) for v in range(PROCESSORS)])

