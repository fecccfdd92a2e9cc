"""Samples what a gate takes, crate by crate, while it runs:

    python3 bench/gate_times.py PID > times.csv

PID is that of `rt ci`. Each second the processor time of every process below it is read from /proc,
and kept by crate and by what it does: the proof, the proof with tests, an edit with its base, or a
compiler. Once the gate has ended, or at Ctrl-C, a line for each crate is printed, in seconds. What a process takes
after its last sample, and crates that were done before the sampling began, are missing.
"""
import os
import pathlib
import sys
import time

TICKS = os.sysconf("SC_CLK_TCK")
KINDS = ("proof", "tests", "edits", "compilers")


def read(path):
    try:
        return pathlib.Path(path).read_bytes()
    except OSError:
        return b""


def processes():
    """Each process with its parent, its start and the processor seconds of its own."""
    for entry in os.listdir("/proc"):
        fields = read(f"/proc/{entry}/stat").rpartition(b")")[2].split() if entry.isdigit() else []
        if fields:
            spent = (int(fields[11]) + int(fields[12])) / TICKS
            yield int(entry), int(fields[1]), fields[19], spent


def below(root, found):
    """Those of the processes that stand below one."""
    parents = {pid: parent for pid, parent, _, _ in found}
    for pid, parent, start, spent in found:
        at = parent
        while at in parents and at != root:
            at = parents[at]
        if at == root:
            yield pid, start, spent


def what(pid):
    """The crate that a process works on, and what it does there."""
    words = read(f"/proc/{pid}/cmdline").decode(errors="replace").split("\0")
    try:
        folder = os.readlink(f"/proc/{pid}/cwd")
    except OSError:
        folder = ""
    named = words[words.index("--crate-name") + 1] if "--crate-name" in words else ""
    if "rt-edit" in folder:
        kind = "edits"
    elif not words[0].endswith("/rattle"):
        kind = "compilers"
    else:
        kind = "tests" if "--test" in words else "proof"
    return named or pathlib.Path(folder).name, kind


def sampled(root):
    """The processor seconds of each crate by what they went into, until the gate ends or Ctrl-C."""
    works, times = {}, {}
    try:
        while os.path.exists(f"/proc/{root}"):
            for pid, start, spent in below(root, list(processes())):
                if (pid, start) not in works or not works[pid, start][0]:
                    works[pid, start] = what(pid)
                times[pid, start] = spent
            time.sleep(1)
    except KeyboardInterrupt:
        pass
    sums = {}
    for key, spent in times.items():
        crate, kind = works[key]
        sums.setdefault(crate, dict.fromkeys(KINDS, 0.0))[kind] += spent
    return sums


def main():
    sums = sampled(int(sys.argv[1]))
    print("crate", *KINDS, sep=",")
    for crate in sorted(sums):
        print(crate, *(round(sums[crate][kind]) for kind in KINDS), sep=",")


if __name__ == "__main__":
    main()
