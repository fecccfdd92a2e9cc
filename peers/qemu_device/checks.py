"""What each scenario looks at."""
import re
import time

from vm import PATIENCE

LATENCY = 5000000       # of disks of a guest that is saved, in ns, so that requests are on their way as it stops


class Failed(Exception):
    pass


def need(true, text):
    if not true:
        raise Failed(text)


def total(counts):
    return sum(sum(each) for each in counts.values())


def alive(vm, first):
    """Work for all devices, whose interrupts are all counted on."""
    before = vm.interrupts()
    vm.run(f"work {first}")
    after = vm.interrupts()
    need(set(before) <= set(after), f"interrupts are gone: {set(before) - set(after)}")
    need(total(after) > total(before), "no interrupt was counted")
    return after


def loaded(vm):
    """All processors read all disks from now on."""
    before = total(vm.interrupts())
    vm.run("load")
    end = time.time() + 60 * PATIENCE
    while total(vm.interrupts()) < before + 50:
        need(time.time() < end, "watchdog: the disks aren't read")


def quiet(vm):
    """Nothing that a translator wrote to QEMU's log: a dropped signal, a refused command."""
    errors = vm.guest_errors()
    need(not errors, f"{len(errors)} guest errors: {errors[:3]}")


def maps(vm, *counts):
    """What `info pic` tells of maps, line by line, is what it tells in all, and as many as these. What it tells."""
    told = vm.info()
    all_of = [int(it) for it in re.search(r"mapped: (\d+) devices, (\d+) events, (\d+) collections", told).groups()]
    events = [int(it) for it in re.findall(r"    device 0x.* (\d+) events", told)]
    collections = re.findall(r"    collection \d+: processor \d+", told)
    need(all_of == [len(events), sum(events), len(collections)], told)
    need(not counts or all_of == list(counts), told)
    return told


def summary(vm, more=""):
    counts = vm.interrupts()
    return f"{len(counts)} interrupts, {total(counts)} counted{more}"


def rate(vm):
    """Interrupts in each second of QEMU's processor time, while each processor reads each disk, without a record."""
    vm.end_record()
    before, since = total(vm.interrupts()), vm.seconds()
    vm.run("rated", 300)
    spent = vm.seconds() - since
    return (total(vm.interrupts()) - before) / spent
