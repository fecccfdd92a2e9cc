#!/usr/bin/env python3
"""Runs a program's `run` on a script, and prints the time, the peak memory and the sizes.

With FIGURES, KIND and SIZE it also adds a row to the file FIGURES, which plot.py draws.

usage: measure.py PROGRAM SCRIPT REPORT [FIGURES KIND SIZE]
"""

import os
import sys
import time


def run(program, script, report):
    """The seconds and the peak memory in bytes of a run, which must end with status 0."""
    start = time.monotonic()
    child = os.fork()
    if child == 0:
        os.dup2(os.open(script, os.O_RDONLY), 0)
        os.dup2(os.open(report, os.O_WRONLY | os.O_CREAT | os.O_TRUNC), 1)
        os.execv(program, ["its", "run"])
    _, status, usage = os.wait4(child, 0)
    seconds = time.monotonic() - start
    code = os.waitstatus_to_exitcode(status)
    if code != 0:
        raise SystemExit(f"status {code}")
    return seconds, usage.ru_maxrss * 1024


def count_calls(report):
    """The entries of a report: the lines that show a reply."""
    with open(report, "rb") as lines:
        return sum(b" -> " in line for line in lines)


def add_row(figures, kind, size, calls, seconds, memory):
    with open(figures, "a", encoding="ascii") as rows:
        rows.write(f"{kind},{size},{calls},{seconds:.2f},{memory / 2**20:.1f}\n")


def main():
    if len(sys.argv) not in (4, 7):
        raise SystemExit(__doc__)
    program, script, report = sys.argv[1:4]
    seconds, memory = run(program, script, report)
    calls = count_calls(report)
    each = f" {memory / calls:5.0f} bytes a call," if calls > 1 else ""
    print(
        f"{calls:>9} calls: {seconds:6.2f} s, {memory / 2**20:7.1f} MiB at most,{each} "
        f"script {os.path.getsize(script)} bytes, report {os.path.getsize(report)} bytes"
    )
    if len(sys.argv) == 7:
        figures, kind, size = sys.argv[4:]
        add_row(figures, kind, size, calls, seconds, memory)


if __name__ == "__main__":
    main()
