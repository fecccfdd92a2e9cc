#!/usr/bin/env python3
"""Measures the calls of the machine that threads share beside the same calls in plain Rust.

Runs its_bench and ports_peer in turn, call by call, on as many processors as a call has threads. Of one thread it keeps
the least time of all rounds. Of several it keeps the median of the rounds in which they ran beside each other: threads
that run one after another don't disturb each other, and are faster. With FIGURES it writes a row for each call to that
file, which plot.py draws. `--real-time` runs at a real-time priority (chrt), for a machine that has other work.

Build both first:
    .ci/run        (or `rt run` in crates/its_bench)
    rustc --edition 2021 -C opt-level=3 -o ports_peer bench/ports_peer.rs

usage: measure_ports.py ITS_BENCH PORTS_PEER [--real-time] [--rounds N] [FIGURES]
"""

import os
import statistics
import subprocess
import sys
import time

# Each call with its threads, and how many calls a thread makes; of `step`, `save` and `migrate`, how many events there are.
CALLS = {
    "hit-1": (1, 200_000),
    "hit-1-of-2": (1, 200_000),
    "signal-1": (1, 200_000),
    "miss-1": (1, 100_000),
    "take-1": (1, 100_000),
    "signal-2-devices": (2, 500_000),
    "signal-2-one": (2, 500_000),
    "signal-2-translators": (2, 500_000),
    "signal-4-devices": (4, 500_000),
    "step": (1, 65_536),
    "save": (1, 65_536),
    "migrate": (1, 65_536),
    "poke": (1, 200_000),
    "poke-track": (1, 200_000),
    "copy": (1, 500),
}
NO_PEER = ("migrate",)
# Plain Rust has one translator and one memory: what stands beside the calls of two.
PEER = {"hit-1-of-2": "hit-1", "signal-2-translators": "signal-2-devices", "poke-track": "poke"}
# Of signals by threads with a device each: the same under one mutex, and the locked instructions of a hit alone.
BOUNDS = {"signal-1": 1, "signal-2-devices": 2, "signal-4-devices": 4}
# The least part of its threads' processors that a run uses whose threads ran beside each other.
BESIDE = 0.75


def prefix(threads, real_time):
    """How a program is started: on the last processors, and before all other work where that is wanted."""
    most = os.cpu_count() or 1
    processors = ",".join(str(n) for n in range(max(0, most - threads), most))
    return (["chrt", "-f", "1"] if real_time else []) + ["taskset", "-c", processors]


def run(command):
    """How many nanoseconds a call took, and how many processors the program used."""
    start = time.monotonic()
    with subprocess.Popen(command, stdout=subprocess.PIPE, text=True) as child:
        printed = child.stdout.read()
        _, status, usage = os.wait4(child.pid, 0)
        child.returncode = os.waitstatus_to_exitcode(status)
    seconds = time.monotonic() - start
    if child.returncode != 0:
        raise SystemExit(f"{command}: status {child.returncode}")
    return float(printed.split()[1]), (usage.ru_utime + usage.ru_stime) / seconds


def kept(runs, threads):
    """What is kept of the runs of one call, if anything is."""
    if threads == 1:
        return min((each for each, _ in runs), default=None)
    beside = [each for each, processors in runs if processors >= BESIDE * threads]
    return statistics.median(beside) if beside else None


def shown(each):
    return f"{each:12.1f} ns" if each is not None else f"{'-':>15}"


def line(name, threads, ours, peer, mutex, locked, load):
    ratio = f"ratio {ours / peer:5.2f}" if ours and peer else " " * 11
    rate = f"{1000 / ours:6.2f} million a second" if ours and ours < 10_000 else ""
    bounds = f"  mutex{shown(mutex)}  locked alone{shown(locked)}" if mutex or locked else ""
    return f"{name:<18}{threads} threads{shown(ours)}, plain Rust{shown(peer)}  {ratio}  {rate:<24} load {load:.1f}{bounds}"


def measure(name, programs, rounds, real_time):
    """The row of a call: its name, threads, time, the times of plain Rust, and the machine's load."""
    threads, count = CALLS[name]
    program, rust = programs
    start = prefix(threads, real_time)
    ours, peer, mutex, locked = [], [], [], []
    for _ in range(rounds):
        ours.append(run(start + [program, "time", str(count), name]))
        if name not in NO_PEER:
            peer.append(run(start + [rust, str(count), PEER.get(name, name)]))
        if name in BOUNDS:
            mutex.append(run(start + [rust, str(count), f"mutex-{threads}"]))
            locked.append(run(start + [rust, str(count), f"locked-{threads}"]))
    return name, threads, *(kept(each, threads) for each in (ours, peer, mutex, locked)), os.getloadavg()[0]


def main():
    words = [word for word in sys.argv[1:] if word != "--real-time"]
    real_time = "--real-time" in sys.argv
    rounds = 10
    if "--rounds" in words:
        at = words.index("--rounds")
        rounds = int(words[at + 1])
        del words[at : at + 2]
    if len(words) not in (2, 3):
        raise SystemExit(__doc__)
    programs = [os.path.realpath(word) for word in words[:2]]
    rows = []
    for name in CALLS:
        row = measure(name, programs, rounds, real_time)
        print(line(*row), flush=True)
        rows.append(row)
    if len(words) == 3:
        with open(words[2], "w", encoding="ascii") as figures:
            figures.write("name,threads,ns,peer_ns,mutex_ns,locked_ns,load\n")
            for name, threads, *measured in rows:
                numbers = [f"{each:.1f}" if each is not None else "" for each in measured]
                figures.write(",".join([name, str(threads), *numbers]) + "\n")


if __name__ == "__main__":
    main()
