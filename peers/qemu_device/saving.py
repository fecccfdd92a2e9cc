"""Scenarios in which a state is saved or loaded."""
import os
import time

from checks import LATENCY, alive, loaded, need, quiet, summary
from vm import DEVICE, PATIENCE, Vm

GITS = 0x08080000
BASER = GITS + 0x100


def waiting(vm):
    """None are delivered from now on: the guest reads from all disks, and what they send stays pending."""
    vm.deliver(False)
    end = time.time() + 2 * PATIENCE
    while time.time() < end and not (vm.library and vm.pending()):
        time.sleep(1)
    need(not vm.library or vm.pending(), vm.info())


def moved_to(vm, work, name, **changed):
    """The virtual machine goes on in another process, and with the same state. It tells for how long it stood still."""
    path = f"{work}/{name}.socket"
    target = Vm(work, name, vm.library, incoming=f"unix:{path}", **{**vars(vm.options), **changed})
    vm.qmp("migrate", uri=f"unix:{path}")
    end = time.time() + 120 * PATIENCE
    while vm.qmp("query-migrate").get("status") not in ("completed", "failed"):
        need(time.time() < end, "watchdog: the migration doesn't end")
        time.sleep(0.05)
    answer = vm.qmp("query-migrate")
    need(answer["status"] == "completed", f"the migration {answer['status']}: {target.errors()}")
    while target.qmp("query-status")["status"] != "running":
        need(time.time() < end, "watchdog: the target doesn't run")
        time.sleep(0.05)
    told = f", {answer['downtime']} ms"
    if vm.library:
        saves = [state for state in vm.states() if state[0] == "saved"]
        need(saves[-1][1:] == target.states()[0][1:], f"the state was {saves[-1]}, and is {target.states()[0]}")
        told += f" ({len(saves)} saves, {saves[-1][2]} pending, state {saves[-1][1][:8]} on both sides)"
    target.text = vm.rest()
    vm.end()
    return target, told


def migration(work, name, library):
    """migration under load: LPIs pending, and then requests on their way"""
    vm = Vm(work, name + "-0", library, nvme=False, latency=LATENCY)
    vm.ready()
    loaded(vm)
    waiting(vm)
    vm, first = moved_to(vm, work, f"{name}-1")
    vm.deliver(True)
    vm.run("sleep 2")
    vm, second = moved_to(vm, work, f"{name}-2")
    vm.run("unload")
    alive(vm, 32)
    vm.run("move 8; processor 2 0; work 64; processor 2 1; again virtio virtio_rng virtio; work 96")
    quiet(vm)
    return vm, summary(vm, first + second)


def snapshot(work, name, library):
    """savevm and loadvm under load, LPIs pending"""
    vm = Vm(work, name, library, nvme=False, latency=LATENCY)
    vm.ready()
    vm.snapshots(f"{work}/{name}.qcow2")
    loaded(vm)
    waiting(vm)
    vm.job("snapshot-save", tag="one", vmstate="snapshots", devices=["snapshots"])
    vm.deliver(True)
    vm.run("unload; move 4; processor 3 0; work 64")
    vm.job("snapshot-load", tag="one", vmstate="snapshots", devices=["snapshots"])
    vm.qmp("cont")
    vm.deliver(True)
    told = ""
    if library:
        states = vm.states()
        restored = states[[state[0] for state in states].index("restored")]
        need(("saved", *restored[1:]) in states, f"states: {states}")
        told = f", {restored[2]} pending, state {restored[1][:8]} on both sides"
    vm.run("unload")
    alive(vm, 32)
    quiet(vm)
    return vm, summary(vm, told)


def status(vm, *wanted):
    """What QEMU says of the migration once it is as wanted."""
    end = time.time() + 120 * PATIENCE
    while True:
        answer = vm.qmp("query-migrate")
        if answer.get("status") in wanted:
            return answer
        need(time.time() < end, f"watchdog: the migration is {answer.get('status')}")
        time.sleep(0.05)


def running(vm):
    need(vm.qmp("query-status")["status"] == "running", "the guest doesn't go on")


def refused(vm):
    """The first level of the device table loses an entry: a migration fails and says so. Then it has it again."""
    table = vm.load(BASER) & 0x0000FFFFFFFF0000
    entry = vm.load(table)
    vm.store(table, 0)
    vm.qmp("migrate", uri="exec:cat >/dev/null")
    answer = status(vm, "failed", "completed")
    need("tables not saved: no-place" in answer.get("error-desc", ""), f"the migration: {answer}")
    vm.store(table, entry)
    running(vm)


def cancelled(work, name, library):
    """a migration cancelled, one whose target dies, one that is refused, and one that works"""
    vm = Vm(work, name + "-0", library, nvme=False, latency=LATENCY)
    vm.ready()
    loaded(vm)
    for leg in ("cancelled", "failed"):
        vm.qmp("migrate-set-parameters", **{"max-bandwidth": 1 << 20})
        path = f"{work}/{name}.socket"
        target = Vm(work, f"{name}-{leg}", library, incoming=f"unix:{path}", nvme=False, latency=LATENCY)
        vm.qmp("migrate", uri=f"unix:{path}")
        status(vm, "active")
        if leg == "cancelled":
            vm.qmp("migrate_cancel")
        else:
            target.process.kill()
        status(vm, leg)
        target.end()
        running(vm)
    vm.qmp("migrate-set-parameters", **{"max-bandwidth": 1 << 30})
    if library:
        refused(vm)
    vm, told = moved_to(vm, work, f"{name}-1")
    vm.run("unload")
    alive(vm, 32)
    quiet(vm)
    return vm, summary(vm, told)


def postcopy(work, name, library):
    """a migration that is finished by postcopy"""
    path = f"{work}/{name}.socket"
    vm = Vm(work, name + "-0", library, nvme=False, latency=LATENCY)
    vm.ready()
    loaded(vm)
    target = Vm(work, name + "-1", library, incoming="defer", nvme=False, latency=LATENCY)
    for each in (vm, target):
        each.qmp("migrate-set-capabilities", capabilities=[{"capability": "postcopy-ram", "state": True}])
    target.qmp("migrate-incoming", uri=f"unix:{path}")
    vm.qmp("migrate-set-parameters", **{"max-bandwidth": 1 << 22})
    vm.qmp("migrate", uri=f"unix:{path}")
    status(vm, "active")
    vm.qmp("migrate-start-postcopy")
    vm.qmp("migrate-set-parameters", **{"max-bandwidth": 1 << 30, "max-postcopy-bandwidth": 0})
    status(vm, "completed")
    vm.end()
    target.run("unload")
    alive(target, 32)
    quiet(target)
    return target, summary(target)


def again(work, name, library):
    """savevm and loadvm, eight times"""
    vm = Vm(work, name, library, nvme=False, latency=LATENCY)
    vm.ready()
    vm.snapshots(f"{work}/{name}.qcow2")
    loaded(vm)
    for times in range(8):
        vm.job("snapshot-save", tag="one", vmstate="snapshots", devices=["snapshots"])
        vm.run(f"move {1 << times % 4:x}")
        vm.job("snapshot-load", tag="one", vmstate="snapshots", devices=["snapshots"])
        vm.qmp("cont")
        vm.job("snapshot-delete", tag="one", devices=["snapshots"])
    vm.run("unload")
    alive(vm, 32)
    quiet(vm)
    return vm, summary(vm)


def to_file(vm, path):
    vm.qmp("stop")
    vm.qmp("migrate", uri=f"exec:cat >{path}")
    status(vm, "completed")
    vm.end()


def foreign(work, name, library):
    """a stream of the other translator, refused by its name"""
    path = f"{work}/{name}.stream"
    vm = Vm(work, name + "-0", not library, nvme=False)
    vm.ready()
    to_file(vm, path)
    target = Vm(work, name + "-1", library, incoming="defer", nvme=False)
    target.qmp("migrate-incoming", uri=f"exec:cat {path}")
    target.process.wait(60 * PATIENCE)
    os.unlink(path)
    need("'arm_gicv3_its" in target.errors(), f"the target said: {target.errors()}")
    return target, target.errors().strip().splitlines()[-1]


def bad_tables(work, name, library):
    """tables that no translator wrote: an error of the load"""
    if not library:
        return None, "not run: it reads its tables as they are used"
    vm = Vm(work, name, library, nvme=False)
    vm.ready()
    vm.snapshots(f"{work}/{name}.qcow2")
    vm.qmp("stop")
    table = vm.load(BASER + 8) & 0x0000FFFFFFFF0000
    entry = vm.load(table)
    vm.store(table, entry | 0xFFFF << 16)       # its collection goes to a processor that there isn't
    vm.job("snapshot-save", tag="one", vmstate="snapshots", devices=["snapshots"])
    try:
        vm.job("snapshot-load", tag="one", vmstate="snapshots", devices=["snapshots"])
        need(False, "the load didn't fail")
    except RuntimeError as e:
        said = str(e)
    need(vm.process.poll() is None, "QEMU ended")
    need("no translator's: bad-target" in vm.errors(), f"QEMU said: {vm.errors()}")
    need(DEVICE in vm.errors(), "no name of the device")
    return vm, said
