"""A machine that EDK2 starts and tells of itself by ACPI, and whose memory grows."""
import re
import time

from bare import TABLE, VALID, Bare, command
from checks import LATENCY, alive, loaded, maps, need, quiet, summary
from saving import moved_to
from vm import FIRMWARE, PATIENCE, Vm

SIZE = 512 << 20


def memory_of(vm):
    return int(re.search(r"MemTotal:\s*(\d+) kB", vm.run("grep MemTotal /proc/meminfo"))[1])


def plug(vm):
    """Memory is plugged in. Where it lies."""
    vm.qmp("object-add", **{"qom-type": "memory-backend-ram", "id": "more", "size": SIZE})
    vm.qmp("device_add", driver="pc-dimm", id="dimm", memdev="more")
    dimm, = vm.qmp("query-memory-devices")
    return dimm["data"]["addr"]


def dimm_words(base):
    """Of a machine that has it from the begin, where the other had it."""
    return ("-object", f"memory-backend-ram,id=more,size={SIZE}", "-device", f"pc-dimm,id=dimm,memdev=more,addr={base}")


def tables_in(vm, base):
    """How many tables of the last save lie in this memory."""
    with open(vm.base + ".record") as f:
        lines = f.read().splitlines()
    ends = [i for i, line in enumerate(lines) if line.startswith("# state saved")]
    first = max(i for i, line in enumerate(lines[:ends[-1]]) if line.startswith("save "))
    found = [int(line.split()[2], 0) for line in lines[first:ends[-1]] if line.startswith("# table")]
    return sum(base <= address < base + SIZE for address in found)


def firmware(work, name, library):
    """EDK2 and ACPI; memory plugged in while it runs, and a migration under load"""
    vm = Vm(work, name + "-0", library, firmware=True, memory="512M,slots=1,maxmem=2G", nvme=False, latency=LATENCY)
    _, seconds = vm.ready(600)
    said = vm.run("ls -d /sys/firmware/acpi/tables/APIC /sys/firmware/acpi/tables/IORT /proc/device-tree 2>&1")
    need(said.count("tables/") == 2, f"tables: {said}")
    alive(vm, 0)
    vm.run("echo online >/sys/devices/system/memory/auto_online_blocks")
    had, base, end = memory_of(vm), plug(vm), time.time() + 60 * PATIENCE
    while memory_of(vm) < had + (SIZE >> 11):
        need(time.time() < end, f"watchdog: the guest has {memory_of(vm)} kB, and had {had}")
        time.sleep(0.5)
    for _ in range(4):
        vm.run("again virtio virtio_blk virtio")
    loaded(vm)
    before = vm
    vm, told = moved_to(vm, work, name + "-1", more=dimm_words(base))
    if library:
        told += f", {tables_in(before, base)} tables in that memory"
        maps(vm)
    vm.run("unload")
    alive(vm, 64)
    vm.run("move 8; work 96")
    quiet(vm)
    return vm, summary(vm, f", {seconds:.0f} s{told}")


def tables(work, name, library):
    """memory plugged in, tables there, and a migration with an LPI pending, without a Linux"""
    machine = Bare(work, name + "-0", library, more=("-bios", FIRMWARE), memory="256M,slots=1,maxmem=2G", record=True)
    vm = machine.vm
    base = plug(vm)
    machine.run([command(8, 0, 4, VALID | base), command(10, 0, 8192 << 32 | 3, 0),
                 command(8, 1 << 32, 4, VALID | TABLE)])
    machine.signal(3)
    machine.comes(0, 1, 8192)
    vm.deliver(False)
    machine.signal(3)
    machine.vm, told = moved_to(vm, work, name + "-1", more=("-bios", FIRMWARE, *dimm_words(base)))
    if library:
        need(tables_in(vm, base) == 1, "no table lies there")
        need(machine.vm.load(base + 24) == 8192 << 16, f"saved: {machine.vm.load(base + 24):#x}")
    machine.vm.deliver(True)
    machine.comes(0, 2, 8192)
    return machine.vm, f"a table at {base:#x}{told}"
