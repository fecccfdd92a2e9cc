"""Scenarios without a Linux: QEMU's bus is written in its place, and processors take what comes (bare.s)."""
import struct
import time

import saving
from checks import maps, need
from vm import PATIENCE, RAM, Vm

GITS, GICR, ECAM = 0x08080000, 0x080A0000, 0x4010000000
CTLR, CBASER, CWRITER, CREADR, BASER = GITS, GITS + 0x80, GITS + 0x88, GITS + 0x90, GITS + 0x100
QUEUE, DEVICES, COLLECTIONS, CONFIG, TABLE, PENDING = (RAM + (i << 20) for i in range(2, 8))
LOG, COUNT = RAM + (1 << 20), RAM + (1 << 20) + 0xF000
VALID, LARGE_PAGES = 1 << 63, 2 << 8
LPIS, DEEP = 65536 - 8192, 0x8000


# bare.s
CODE = bytes.fromhex(
    "e10080d2a1cc18d5df3f03d5e11f80d2014618d5210080d2e1cc18d5df3f03d5a40038d5850c4092863c48d3a410068b"
    "0502a8d2a510048ba40100b402cc38d5030084d25f0003ebe300005422cc18d5a20400f9a60040f9c6040091a60000f9"
    "f7ffff177f2003d5f5ffff170702a8d207009ef2e70040f9280080d21f0107ebe2fdff54600080d20080b8f2010d4092"
    "02fd44d3212002aa0200a8d2020000d408050091f6ffff17")


def command(op, first=0, second=0, third=0):
    return struct.pack("<4Q", op | first, second, third, 0)


class Bare:
    """A machine whose ITS is enabled, with a queue of 1 MiB. The collection of a processor's number goes there.

    QEMU's bus sends messages as device 0.
    """

    def __init__(self, work, name, library, more=(), processors=1, record=False, memory=256):
        self.vm = Vm(work, name, library, processors=processors, memory=memory, linux=False, nvme=False, disks=(),
                     more=[*more, "-S"], record=record)
        vm = self.vm
        self.place = 0
        vm.store_bytes(RAM, CODE)
        vm.store(COUNT, processors)
        vm.store_bytes(CONFIG, b"\xA1" * LPIS)
        for i in range(processors):
            vm.store(GICR + (i << 17) + 0x70, CONFIG | 15)
            vm.store(GICR + (i << 17) + 0x78, PENDING + (i << 16))
            vm.of_bus(f"writel {GICR + (i << 17):#x} 1")
        vm.deliver(True)
        vm.store(BASER, VALID | DEVICES | LARGE_PAGES)
        vm.store(BASER + 8, VALID | COLLECTIONS | LARGE_PAGES)
        vm.store(CBASER, VALID | QUEUE | 255)
        vm.of_bus(f"writel {CTLR:#x} 1")
        vm.qmp("cont")
        self.run([command(9, third=VALID | i << 16 | i) for i in range(processors)])

    def put(self, commands):
        """Commands into the queue, and CWRITER after them: how long the write took, in seconds."""
        data = b"".join(commands)
        end = (1 << 20) - self.place
        self.vm.store_bytes(QUEUE + self.place, data[:end])
        if data[end:]:
            self.vm.store_bytes(QUEUE, data[end:])
        self.place = (self.place + len(data)) % (1 << 20)
        since = time.time()
        self.vm.store(CWRITER, self.place)
        return time.time() - since

    def done(self):
        """Until the queue is empty: the longest time that the monitor had to wait meanwhile, in seconds."""
        longest, end = 0, time.time() + 300 * PATIENCE
        while True:
            since = time.time()
            empty = self.vm.load(CREADR) == self.place
            longest = max(longest, time.time() - since)
            if empty:
                return longest
            need(time.time() < end, "watchdog: the queue isn't taken")

    def signal(self, event):
        self.vm.of_bus(f"writel {GITS + 0x10040:#x} {event:#x}")

    def taken(self, processor):
        """How many LPIs a processor took, and the last."""
        return self.vm.load(LOG + 16 * processor), self.vm.load(LOG + 16 * processor + 8)

    def comes(self, processor, count, intid):
        end = time.time() + 60 * PATIENCE
        while self.taken(processor) != (count, intid):
            need(time.time() < end, f"watchdog: processor {processor} took {self.taken(processor)}")
            time.sleep(0.01)

    def run(self, commands):
        self.put(commands)
        self.done()


def map_all(machine, device):
    """All LPIs, as events of one device."""
    machine.run([command(8, device << 32, 15, VALID | TABLE)])
    for first in range(0, LPIS, DEEP // 2):
        machine.run([command(10, device << 32, (8192 + i) << 32 | i)
                     for i in range(first, min(first + DEEP // 2, LPIS))])


def queue_of(machine, commands):
    """How long a queue of these takes, and for how long nobody else had QEMU's big lock."""
    vm = machine.vm
    since = time.time()
    write = machine.put(commands)
    longest = machine.done()
    told = f"{len(commands):,} commands in {time.time() - since:.2f} s, the write {write * 1e3:.2f} ms, " \
           f"the monitor waited {longest * 1e3:.2f} ms"
    if vm.library:
        told += f", longest write {vm.told('longest write')} ns, longest slice {vm.told('longest')} ns"
    return vm, told


def full_queue(work, name, library):
    """a queue of INVALL, with all LPIs mapped"""
    machine = Bare(work, name, library)
    map_all(machine, 8)
    return queue_of(machine, [command(13)] * 1000)


def brief_commands(work, name, library):
    """a queue full of INV"""
    machine = Bare(work, name, library)
    map_all(machine, 8)
    return queue_of(machine, [command(12, 8 << 32, i) for i in range(DEEP - 1)])


def addable(count):
    """What QEMU has to be told of pieces of memory of 1 MiB, to be added while it runs."""
    return [word for i in range(count) for word in (
        "-object", f"memory-backend-ram,id=more{i},size=1M", "-device",
        f"ivshmem-plain,memdev=more{i},master=on,addr={i + 4:#x}")]


def add(vm, i, place):
    """One of these pieces comes to lie there."""
    config = ECAM + ((i + 4) << 15)
    vm.of_bus(f"writel {config + 0x18:#x} {place & 0xFFFFFFFF:#x}")
    vm.of_bus(f"writel {config + 0x1C:#x} {place >> 32:#x}")
    vm.of_bus(f"writel {config + 4:#x} 2")


def windows(vm):
    """How many there are, how many were added while it ran, and how many machines were made for them."""
    return vm.told("windows"), vm.told("added while it ran"), vm.told("machines anew")


def more_memory(work, name, library):
    """memory added while it runs, in 20 places, and tables there that are saved"""
    if not library:
        return None, "not run: it has no windows"
    machine = Bare(work, name, library, addable(20))
    vm = machine.vm
    places = [0x8000000000 + (i << 30) for i in range(20)]
    for i, place in enumerate(places):
        add(vm, i, place)
    for i, place in enumerate(places):
        machine.run([command(8, (i + 1) << 32, 4, VALID | place), command(10, (i + 1) << 32, (8192 + i) << 32 | 3)])
    machine.run([command(8, (100 + i) << 32, 0, VALID | TABLE + (i << 8)) for i in range(80)])
    need("mapped: 100 devices, 20 events, 1 collections" in vm.info() and "and 36 more devices" in vm.info(), vm.info())
    need(vm.told("refused") == 0, vm.info())
    vm.qmp("stop")
    saved = [vm.load(place + 24) for place in places]
    need(saved == [8192 + i << 16 for i in range(20)], f"saved: {[hex(it) for it in saved]}")
    need(windows(vm)[0] == 16, vm.info())
    return vm, "{} windows in the end, {} added, {} machines anew".format(*windows(vm))


def overlap(work, name, library):
    """tables laid over one another: not saved, and told"""
    if not library:
        return None, "not run: it saves no tables"
    machine = Bare(work, name, library, addable(3))
    vm = machine.vm
    machine.run([command(8, 1 << 32, 4, VALID | TABLE), command(8, 2 << 32, 4, VALID | TABLE)])
    machine.run([command(10, 9 << 32, 8192 << 32)])
    machine.signal(5)               # both of a device that isn't mapped
    places = [0x8000000000 + (i << 20) for i in range(3)]
    had = windows(vm)[0]
    for i in (0, 1):                # the second begins where the first ends
        add(vm, i, places[i])
    need(windows(vm) == (had + 2, 2, 0), vm.info())
    tables = [(3, places[0]), (4, places[1])]
    machine.run([command(8, device << 32, 4, VALID | place) for device, place in tables])
    machine.run([command(10, device << 32, (8192 + device) << 32 | 3) for device, _ in tables])
    vm.qmp("migrate", uri="exec:cat >/dev/null")
    end = time.time() + 60 * PATIENCE
    while vm.qmp("query-migrate").get("status") not in ("failed", "completed"):
        need(time.time() < end, "watchdog: the migration doesn't end")
        time.sleep(0.05)
    answer = vm.qmp("query-migrate")
    need("tables not saved: overlap" in answer.get("error-desc", ""), f"the migration: {answer}")
    told = maps(vm, 4, 2, 1)
    need("last save: " in told and f"device 0x3: 5 EventID bits, table at {places[0]:#x}, 1 events" in told, told)
    machine.run([command(8, 2 << 32, 0, 0)])
    add(vm, 2, places[2])           # now the window of all three can be one
    need(windows(vm) == (had + 1, 2, 1), vm.info())
    tables += [(5, places[2] - (256 << 10))]
    machine.run([command(8, 5 << 32, 15, VALID | tables[2][1]), command(10, 5 << 32, 8197 << 32 | 3)])
    vm.qmp("stop")
    need([vm.load(place + 24) for _, place in tables] == [8192 + device << 16 for device, _ in tables], vm.info())
    told = maps(vm, 4, 3, 1)
    need("no-device: 1 refused" in told and "no-device 1," in told, told)
    return vm, answer["error-desc"]


def without_linux(work, name, library):
    """64 processors without a Linux: LPIs taken, moved, disabled, pending through a migration"""
    count = 64
    machine = Bare(work, name + "-0", library, processors=count, record=True)
    vm = machine.vm
    machine.run([command(8, 0, 5, VALID | TABLE)] + [command(10, 0, (8192 + i) << 32 | i, i) for i in range(count)])
    for i in range(count):
        machine.signal(i)
        machine.comes(i, 1, 8192 + i)
    machine.run([command(1, 0, i, count - 1 - i) for i in range(count)])
    for i in range(count):
        machine.signal(i)
        machine.comes(count - 1 - i, 2, 8192 + i)
    switched(machine, 63, 8192)
    vm.deliver(False)
    for i in range(count):
        machine.signal(i)
    vm, told = saving.moved_to(vm, work, name + "-1", more=())
    machine.vm = vm
    vm.deliver(True)
    for i in range(count):
        machine.comes(count - 1 - i, 5 if i == 0 else 3, 8192 + i)
    return vm, f"{4 * count} commands, {3 * count + 2} signals{told}"


def switched(machine, processor, intid):
    """An LPI isn't taken while it is disabled: by GICR_INVLPIR, and by GICR_INVALLR; with QEMU's own by INV."""
    vm = machine.vm
    frame = GICR + (processor << 17)
    for times, (register, value) in enumerate(((0xA0, intid), (0xB0, 0))):
        for byte in ("a0", "a1"):
            vm.of_bus(f"write {CONFIG + intid - 8192:#x} 1 0x{byte}")
            if machine.vm.library:
                vm.store(frame + register, value)
            else:
                machine.run([command(12, 0, intid - 8192)])
            if byte == "a0":
                machine.signal(intid - 8192)
                time.sleep(0.2)
                need(machine.taken(processor)[0] == 2 + times, f"it took {machine.taken(processor)}")
        machine.comes(processor, 3 + times, intid)
