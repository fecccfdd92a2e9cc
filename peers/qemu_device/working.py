"""Scenarios of a Linux that works."""
import os
import time

from checks import LATENCY, alive, loaded, maps, need, quiet, summary
from saving import moved_to
from vm import PATIENCE, Vm


def boot(work, name, library):
    """boot, five devices, work on four processors"""
    vm = Vm(work, name, library)
    linux, seconds = vm.ready()
    alive(vm, 0)
    used = [sum(1 for counts in vm.interrupts().values() if counts[cpu]) for cpu in range(4)]
    need(all(used), f"a processor had none: {used}")
    if library:
        maps(vm)
    quiet(vm)
    return vm, summary(vm, f", {seconds:.0f} s, Linux {linux.split()[0]}")


def many_processors(work, name, library):
    """64 processors, a disk of 64 queues"""
    # QEMU counts instructions in place of time: without that most boots on a busy host ended in soft lockups.
    vm = Vm(work, name, library, processors=64, memory=1024, disks=(None,), nvme=False, more=("-icount", "shift=0"))
    linux, seconds = vm.ready(900)
    some = (0, 17, 40, 63)
    for cpu in some:
        vm.run(f"reads {cpu} 0")
    vm.run("timeout $long ping -c 1 -W $long 10.0.2.2 >/dev/null || echo 'guest: HANGS network'")
    counts = vm.interrupts()
    without = [cpu for cpu in some if not any(each[cpu] for each in counts.values())]
    need(not without, f"processors {without} had none")
    quiet(vm)
    return vm, summary(vm, f", {seconds:.0f} s, {linux}")


def few(processors):
    """The scenario with so many processors."""
    def scenario(work, name, library):
        vm = Vm(work, name, library, processors=processors, disks=(None,))
        vm.ready()
        alive(vm, 0)
        vm.run(f"move {1 << processors - 1:x}; work 1000")
        quiet(vm)
        return vm, summary(vm)

    scenario.__name__ = f"processors_{processors}"
    scenario.__doc__ = f"a machine of {processors}: boot, work, interrupts moved to the last"
    return scenario


def on_kernel(kernel, cpu="cortex-a57"):
    """The scenario on a kernel of `run.sh kernels`."""
    def scenario(work, name, library):
        vm = Vm(work, name + "-0", library, kernel=kernel, cpu=cpu, nvme=False, latency=LATENCY)
        linux, seconds = vm.ready()
        alive(vm, 0)
        vm.run("move 4; processor 2 0; work 32; processor 2 1; again virtio virtio_rng virtio; work 64")
        loaded(vm)
        vm, told = moved_to(vm, work, name + "-1")
        vm.run("unload")
        alive(vm, 96)
        pages = vm.run("zcat /proc/config.gz 2>/dev/null | grep -c PREEMPT_RT=y; uname -v").split()
        quiet(vm)
        return vm, summary(vm, f", {seconds:.0f} s, Linux {linux.split()[0]}"
                               f"{' PREEMPT_RT' if 'PREEMPT_RT' in pages else ''}{told}")

    scenario.__name__ = f"linux_{kernel}"
    scenario.__doc__ = f"Linux {kernel}: work, a processor and a driver off and on, migration under load"
    return scenario


def bridges(work, name, library):
    """devices behind bridges, and one on a thread of its own"""
    more = ["-object", "iothread,id=thread", "-device", "pcie-root-port,id=port9,chassis=9", "-blockdev",
            "driver=null-co,size=1073741824,read-zeroes=on,node-name=disk9", "-device",
            "virtio-blk-pci,drive=disk9,bus=port9,iothread=thread"]
    vm = Vm(work, name, library, ports=True, more=more)
    vm.ready()
    alive(vm, 0)
    vm.run("move 4; work 32; move 2; work 64")
    said = vm.run("ls /sys/bus/pci/devices")
    need("0000:03:00.0" in said, f"devices: {said}")
    quiet(vm)
    return vm, summary(vm)


def others(work, name, library):
    """4 GiB; 8 GiB with gic-version=max; its=off"""
    told = []
    for leg, memory, machine in (("4", 4096, ""), ("max", 8192, ",gic-version=max"), ("off", 512, ",its=off")):
        vm = Vm(work, f"{name}-{leg}", library, memory=memory, machine=machine)
        vm.ready()
        vm.run("work 0")
        told.append(f"{memory >> 10 or 0.5} GiB{machine}: {len(vm.interrupts())} interrupts")
        quiet(vm)
        if leg != "off":
            vm.end()
    return vm, "; ".join(told)


def reset(work, name, library):
    """stopped and set going again under load, and then a reset"""
    vm = Vm(work, name, library, reboot=True)
    vm.ready()
    loaded(vm)
    for _ in range(5):
        vm.qmp("stop")
        vm.qmp("cont")
    vm.run("true")
    vm.qmp("system_reset")
    vm.ready()
    alive(vm, 0)
    return vm, summary(vm)


def moves(work, name, library):
    """interrupts moved under load"""
    vm = Vm(work, name, library)
    vm.ready()
    loaded(vm)
    for times in range(3):
        for mask in ("2", "8", "4", "1", "f"):
            vm.run(f"move {mask}")
    vm.run("unload")
    alive(vm, 32)
    quiet(vm)
    return vm, summary(vm)


def processors(work, name, library):
    """processors off and on"""
    vm = Vm(work, name, library)
    vm.ready()
    for number in (1, 2, 3):
        vm.run(f"move {1 << number:x}; processor {number} 0; work 64; processor {number} 1; work 96")
    alive(vm, 128)
    quiet(vm)
    return vm, summary(vm)


def drivers(work, name, library):
    """drivers off and on"""
    vm = Vm(work, name, library)
    vm.ready()
    for bus, driver, prefix in (("virtio", "virtio_blk", "virtio"), ("virtio", "virtio_rng", "virtio"),
                                ("pci", "nvme", "0000")):
        vm.run(f"again {bus} {driver} {prefix}")
    alive(vm, 128)
    quiet(vm)
    return vm, summary(vm)


def hibernation(work, name, library):
    """hibernation three times, a migration in the middle of each, and on from the image"""
    disk = f"{work}/{name}.disk"
    with open(disk, "wb") as f:
        f.truncate(1 << 30)
    vm = Vm(work, name + "-0", library, memory=256, disks=(disk, None), nvme=False)
    vm.ready()
    vm.run("mkswap /dev/vda >/dev/null; swapon /dev/vda; echo test_resume >/sys/power/disk")
    told = ""
    for times in (1, 2, 3):
        vm.send("echo disk >/sys/power/state; dmesg | grep -ci 'hibernation exit'")
        time.sleep(times)
        vm, moved = moved_to(vm, work, f"{name}-{times}")
        said = vm.done(300).split()
        need(str(times) in said, f"hibernation {times}: {said}")
        told += moved
    alive(vm, 32)
    vm.run("processor 1 0; work 64; processor 1 1; work 96")
    quiet(vm)
    return vm, summary(vm, told)


def suspend(work, name, library):
    """suspend to idle"""
    vm = Vm(work, name, library)
    vm.ready()
    vm.run("move 4; echo +3 >/sys/class/rtc/rtc0/wakealarm; echo freeze >/sys/power/state", 60)
    alive(vm, 32)
    quiet(vm)
    return vm, summary(vm)


def kexec(work, name, library):
    """a second and a third kernel by kexec, a migration in the middle of each"""
    more = []
    for node, file in (("kernel", "vmlinuz"), ("first", "initrd.gz")):
        more += ["-blockdev", f"driver=file,filename={work}/{file},node-name={node},read-only=on", "-device",
                 f"virtio-blk-pci,drive={node}"]
    vm = Vm(work, name + "-0", library, more=more, nvme=False)
    words = f"console=ttyAMA0 quiet panic=-1 patience={PATIENCE}"
    told = ""
    vm.ready()
    for times in (1, 2):
        vm.run("work 0; cat /dev/vdc >/tmp/vmlinuz; cat /dev/vdd >/tmp/initrd.gz")
        vm.run(f"kexec -l /tmp/vmlinuz --initrd=/tmp/initrd.gz --mem-min=0x50000000 --append='{words}'")
        vm.send("kexec -e")
        time.sleep(2 * times - 1)
        vm, moved = moved_to(vm, work, f"{name}-{times}")
        vm.ready()
        told += moved
    said = vm.run("dmesg | grep -c 'Booted with LPIs enabled'; dmesg | grep -ci 'failed to disable LPIs'")
    alive(vm, 32)
    vm.run("move 4; processor 2 0; work 64; processor 2 1; work 96")
    quiet(vm)
    return vm, summary(vm, f", third kernel: {' '.join(said.split())}{told}")


def stress(work, name, library):
    """all of it again and again"""
    vm = Vm(work, name, library)
    vm.ready()
    loaded(vm)
    end, rounds = time.time() + float(os.environ.get("SECONDS_OF_STRESS", "3600")), 0
    while time.time() < end:
        for number in (1, 2, 3):
            vm.run(f"move {1 << number:x}; processor {number} 0; processor {number} 1; move {1 << rounds % 4:x}")
        vm.run("again virtio virtio_rng virtio")
        if rounds % 16 == 15:
            vm.qmp("stop")
            vm.qmp("cont")
        rounds += 1
    vm.run("unload")
    alive(vm, 32)
    quiet(vm)
    return vm, summary(vm, f", {rounds} rounds")
