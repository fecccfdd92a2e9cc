#!/usr/bin/env python3
"""A Linux at work, on the library's ITS and on QEMU's own, and what came of it, as a table.

usage: scenarios.py DIR [library|own|both [NAME ..]]

Without names all are run but `stress`, which takes SECONDS_OF_STRESS, an hour where the environment doesn't say it.
With PATIENCE in the environment each watchdog waits so many times as long: for a host with much other work.
DIR is that of `run.sh build`. What a guest wrote, QEMU's log of guest errors and the record of the library stand in
DIR/NAME-TRANSLATOR.*. A scenario fails where a device doesn't answer in time (the watchdog), where an interrupt isn't
there or isn't counted any more, and where a state isn't the same before and after.
"""
import sys
import time

import bare
import plugged
import saving
import working
from checks import Failed, rate
from vm import Vm

KERNELS = [working.on_kernel(each) for each in ("5.10", "6.12", "6.12-rt", "7.3")]
KERNELS.append(working.on_kernel("6.12-16k", "cortex-a76"))
FEW = [working.few(each) for each in (1, 2, 8, 16)]
SCENARIOS = [working.boot, *FEW, working.many_processors, *KERNELS, working.bridges, working.others, working.moves,
             working.processors, working.drivers, working.reset, saving.migration, saving.cancelled, saving.postcopy,
             saving.snapshot, saving.again, saving.foreign, saving.bad_tables, plugged.firmware, working.hibernation,
             working.suspend, working.kexec, bare.without_linux, bare.full_queue, bare.brief_commands,
             bare.more_memory, plugged.tables, bare.overlap]
LONG = [working.stress]


def rated(vm):
    """The rate of a guest that has interrupts."""
    if not vm.options.linux or vm.process.poll() is not None or vm.qmp("query-status")["status"] != "running":
        return ""
    return f"{rate(vm):,.0f}" if vm.interrupts() else ""


def one(scenario, work, kind):
    name = f"{scenario.__name__}-{kind}"
    since, per_second = time.time(), ""
    try:
        vm, told = scenario(work, name, kind == "library")
        if vm:
            per_second = rated(vm)
            vm.end()
        result = "works" if vm else ""
    except (Failed, TimeoutError, EOFError, RuntimeError, OSError, LookupError,
            ValueError) as e:
        result, told = "FAILS", f"{type(e).__name__}: {' '.join(str(e).split())[-300:]}"
    Vm.end_all()
    print(f"| {scenario.__doc__} | {kind} | {result} | {told} | {per_second} | {time.time() - since:.0f} s |",
          flush=True)
    return result != "FAILS"


def main():
    work = sys.argv[1]
    kinds = {"both": ["library", "own"]}.get(sys.argv[2] if len(sys.argv) > 2 else "both", sys.argv[2:3])
    names = sys.argv[3:]
    print("| Scenario | ITS | Result | | Interrupts a second | Took |\n|---|---|---|---|---|---|")
    good = True
    for scenario in SCENARIOS + LONG:
        for kind in kinds:
            if scenario.__name__ in names or not names and scenario not in LONG:
                good &= one(scenario, work, kind)
    sys.exit(not good)


if __name__ == "__main__":
    main()
