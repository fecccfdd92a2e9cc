#!/usr/bin/env python3
"""Times of both translators in the same program, by the same guest's work, as a table in nanoseconds.

usage: speed.py DIR [SECONDS]

SECONDS of load, 20 where none are said.

A signal is a device's write of GITS_TRANSLATER, with all that QEMU does until a processor's line is raised; an
acknowledgement is a read of ICC_IAR1_EL1 that gets an LPI; a command is a write of GITS_CWRITER after one command and a
SYNC; a save is its_save alone. By the clock of the thread that makes the call, so the medians are what a call takes
where the host does nothing else meanwhile. A downtime is QEMU's own figure.
"""
import os
import sys
import time

from vm import Vm

MOVES = 40
MIGRATIONS = 5


def measured(work, kind, seconds):
    path = f"{work}/speed-{kind}.times"
    vm = Vm(work, f"speed-{kind}", kind == "library", times=path)
    vm.ready()
    vm.run("load")
    time.sleep(seconds)
    vm.run("unload")
    for i in range(MOVES):
        vm.run(f"move {1 << i % 4:x}")
    vm.run("again virtio virtio_blk virtio")
    for _ in range(20 if kind == "library" else 0):
        vm.qmp("stop")
        vm.qmp("cont")
    vm.run("true")
    vm.end()
    with open(path) as f:
        rows = [line.split() for line in f]
    return {row[0]: [int(x) for x in row[1:]] for row in rows}


def downtimes(work, kind):
    found = []
    name = f"downtime-{kind}"
    vm = Vm(work, name + "-0", kind == "library", times="/dev/null", nvme=False)
    vm.ready()
    vm.run("load")
    for leg in range(1, MIGRATIONS + 1):
        path = f"{work}/{name}.socket"
        target = Vm(work, f"{name}-{leg}", kind == "library", incoming=f"unix:{path}", times="/dev/null",
                    nvme=False)
        vm.qmp("migrate", uri=f"unix:{path}")
        while vm.qmp("query-migrate").get("status") not in ("completed", "failed"):
            time.sleep(0.05)
        found.append(vm.qmp("query-migrate")["downtime"])
        vm.end()
        vm = target
        vm.run("true")
        time.sleep(2)
    vm.end()
    return sorted(found)[len(found) // 2]


def main():
    work = sys.argv[1]
    os.makedirs(work, exist_ok=True)
    seconds = int(sys.argv[2]) if len(sys.argv) > 2 else 20
    both = {kind: measured(work, kind, seconds) for kind in ("library", "own")}
    print("| | library: count, tenth, median, nine tenths | QEMU's own |\n|---|---|---|")
    for what in ["signal", "acknowledgement", "mapd", "mapti", "movi", "inv", "discard", "save"]:
        cells = [" ".join(str(x) for x in both[kind].get(what, ["none"])) for kind in ("library", "own")]
        print(f"| {what} | {cells[0]} | {cells[1]} |", flush=True)
    print(f"| downtime, median of {MIGRATIONS}, ms | {downtimes(work, 'library')} | {downtimes(work, 'own')} |")


main()
