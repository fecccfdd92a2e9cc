#!/usr/bin/env python3
"""Measures what 512 processors cost, what threads cost each other, and what saves cost, with its_bench, in rounds.

- `many`: each call on a machine of 16 processors and on one of 512, by turns: the least time of all rounds, and the
  second by the first.
- `beside`: how long a signal takes by one, two and four threads, alone and beside a thread that only makes other calls,
  row by row of its_bench, of plain Rust of the same shape, and of a machine of one caller under a mutex, a spinlock and
  a ticket lock: the median over the rounds of the middle one, the 99th and the 99.9th of a hundred, the longest, how
  many signals there were a second, and how many other calls. A round doesn't count in which the other thread made no
  call; a program that takes more than two minutes has no row. A row's name in place of `beside` measures that alone.
- `save`: saves of 1,024, 16,384 and 65,536 events beside the same in plain Rust (ports_peer's `save`), and beside the
  least that a save can do (`save-flat`): the least and the median of all rounds.

With --before each of the last two is also measured of another its_bench, in turn with this one. Build first:
    .ci/run        (or `rt run` in crates/its_bench)
    rustc --edition 2021 -C opt-level=3 -o ports_peer bench/ports_peer.rs

usage: measure_saves.py ITS_BENCH PORTS_PEER [--before ITS_BENCH] [--rounds N] [many|beside|beside-ROW|save]..
"""

import os
import re
import statistics
import subprocess
import sys

COUNT = 20_000
# How many signals a thread sends, and beside calls that take long.
SIGNALS = 200_000
FEWER_SIGNALS = 20_000
LONG = ("save", "save-1024", "invall-1024-of-4", "invall-1024-of-16")
BESIDE = ("nothing", "int", "inv", "mapti", "mapti-new", "invall", *LONG[2:], "take", *LONG[:2])
# What the names of rows of one, two and four threads that signal end in.
THREADS = ("", "-2", "-4")
SHARED = {"plain Rust": "ports", "a mutex": "mutex", "a spinlock": "spinlock", "a ticket lock": "ticket"}
SECONDS = 120
EVENTS = (1024, 16_384, 65_536)
# As its_bench printed it before it told rates, too.
LATENCIES = re.compile(
    r"\S+ p50 (\d+) p99 (\d+) p99\.9 (\d+) most (\d+) ns(?: rate (\d+) others (\d+) a second)?"
)


def printed(*command):
    return subprocess.run([str(word) for word in command], stdout=subprocess.PIPE, text=True, check=True).stdout


def show(name, *cells):
    print(f"{name:<45}" + "".join(f"{cell:>14}" for cell in cells), flush=True)


def short(nanoseconds):
    """In the unit that gives three digits or four."""
    for unit, size in (("ns", 1), ("us", 1e3), ("ms", 1e6), ("s", 1e9)):
        if nanoseconds < 1000 * size or unit == "s":
            return f"{nanoseconds / size:.4g} {unit}"


def times(lines):
    return {line.split()[0]: float(line.split()[1]) for line in lines.splitlines()}


def measure_many(program, rounds):
    show("many", "16", "512", "ratio")
    least = {}
    for _ in range(rounds):
        for name, each in times(printed(program, "many", COUNT)).items():
            least[name] = min(each, least.get(name, each))
    for name in (name[: -len("-of-16")] for name in least if name.endswith("-of-16")):
        few, many = least[f"{name}-of-16"], least[f"{name}-of-512"]
        show(name, short(few), short(many), f"{many / few:.2f}")


def rate(each):
    """A second."""
    return f"{each / 1e6:.3g} M/s" if each >= 1e6 else f"{each / 1e3:.3g} k/s"


def measured(command, alone):
    """What a program prints of a row, if it ends in time and the threads ran beside each other."""
    try:
        said = subprocess.run(command, stdout=subprocess.PIPE, text=True, timeout=SECONDS, check=True).stdout
    except subprocess.TimeoutExpired:
        return None
    found = LATENCIES.match(said)
    if not found or not alone and found[6] == "0":
        return None
    return [int(each or 0) for each in found.groups()]


def rows_beside():
    """The rows of its_bench, each with how many signals a thread sends."""
    for kind in BESIDE:
        for threads in THREADS:
            if f"{kind}{threads}" != "invall-1024-of-4-4":
                yield f"beside-{kind}{threads}", FEWER_SIGNALS if kind in LONG else SIGNALS


def measure_beside(programs, peer, rounds, only):
    show("beside", "p50", "p99", "p99.9", "longest", "signals", "other calls")
    for name, count in rows_beside():
        if only and name not in only:
            continue
        commands = {which: (program, "beside", str(count), name) for which, program in programs.items()}
        commands |= {which: (peer, "beside", str(count), name, shared) for which, shared in SHARED.items()}
        found = {which: [] for which in commands}
        for _ in range(rounds):
            for which, command in commands.items():
                found[which].append(measured(command, "nothing" in name))
        for which, rows in found.items():
            medians = [statistics.median(column) for column in zip(*filter(None, rows))]
            cells = [*map(short, medians[:4]), *map(rate, medians[4:])]
            show(f"{name}, {which}", *(cells or ["-"] * 6))


def measure_saves(programs, peer, rounds):
    show("save", "least", "median", "by plain Rust's")
    for events in EVENTS:
        commands = {which: (program, "time", events, "save") for which, program in programs.items()}
        commands |= {"plain Rust": (peer, events, "save"), "plain Rust, flat": (peer, events, "save-flat")}
        found = {which: [] for which in commands}
        for _ in range(rounds):
            for which, command in commands.items():
                found[which].append(float(printed(*command).split()[1]))
        plain = found["plain Rust"]
        for which, all_of in found.items():
            least, median = min(all_of), statistics.median(all_of)
            ratios = f"{least / min(plain):.2f}, {median / statistics.median(plain):.2f}"
            show(f"{events} events, {which}", short(least), short(median), ratios)


def main():
    words = sys.argv[1:]
    given = {}
    for name in ("--before", "--rounds"):
        if name in words:
            at = words.index(name)
            given[name] = words[at + 1]
            del words[at : at + 2]
    if len(words) < 2:
        sys.exit(__doc__)
    program, peer = (os.path.realpath(word) for word in words[:2])
    rounds = int(given.get("--rounds", 5))
    programs = {"before": os.path.realpath(given["--before"])} if "--before" in given else {}
    programs["now"] = program
    wanted = words[2:] or ["many", "beside", "save"]
    print(f"{rounds} rounds, load {os.getloadavg()[0]:.1f}")
    if "many" in wanted:
        measure_many(program, rounds)
    only = [word for word in wanted if word.startswith("beside-")]
    if only or "beside" in wanted:
        measure_beside(programs, peer, rounds, only)
    if "save" in wanted:
        measure_saves(programs, peer, rounds)


main()
