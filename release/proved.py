#!/usr/bin/env python3
"""Says which runs proved what a release links, and refuses where a run failed, a crate is in none, or an edit is.

usage: proved.py KIT CRATE[@TARGET].. -- LOG..    KIT is the kit's folder

LOG is what `rt ci`, `rt ci NAME..`, `rt must-fail NAME..`, or `rt lib --target TARGET` in the folder of a static
library printed. A crate, and each of the repository that it stands on, has to be in a log of `rt ci` that ended with
nothing failed, or be the library of a log of `rt lib`; one with @TARGET has to be that of a log of `rt lib` for that
target. Each edit in the must-fail/ of such a crate has to be told as refused in a log of `rt ci` or `rt must-fail`: a
run in a clone without its edits counts for the proofs alone. Prints a line for each log, and one for the edits. It
runs at the top of a clone.
"""
import glob
import os
import re
import sys
from typing import NamedTuple

from linked import all_below, read_uses

COUNTS = re.compile(r"^(\d+) passed, (\d+) failed(?: \(.* and the crates below alone: not the gate\))?$", re.M)
PROVED = re.compile(r"^rt: (\w+) (?:proved|is kept: an earlier run .*)$", re.M)
BUILT = re.compile(r"^logic=proved functions=\d+ .*\btarget=(\S+)", re.M)
EDIT = re.compile(r"^rt: must-fail (\w+/[\w.-]+\.edit): (refused, as it must be|BAD EDIT|NOT TRIED|NOT REFUSED)", re.M)


class Log(NamedTuple):
    """What a log says in short, the crates that it has (that of `rt lib` with @TARGET too), and the edits refused."""

    said: str
    crates: set
    edits: set


def refuse(what):
    raise SystemExit(f"release/proved.py: {what}")


def read_log(path):
    with open(path, encoding="utf-8", errors="replace") as file:
        text = file.read()
    counts, built, edits = COUNTS.findall(text), BUILT.findall(text), read_edits(path, text)
    if counts:
        passed, failed = counts[-1]
        if int(failed) or not int(passed):
            refuse(f"{path} ended with {passed} passed, {failed} failed")
        return Log(f"{passed} passed, 0 failed, {len(edits)} edits refused", set(PROVED.findall(text)), edits)
    if built:
        last = re.findall(r"^(?:fn|impl|struct|enum) (\w+)::.*: proved$", text, re.M)
        if last and text.rstrip().split("\n")[-1].startswith("logic=proved"):
            return Log(f"{last[-1]} proved for {built[-1]}", {last[-1], f"{last[-1]}@{built[-1]}"}, set())
    elif edits:
        return Log(f"{len(edits)} edits refused", set(), edits)
    refuse(f"{path} has no count of what passed, no edit, and isn't of a library that was proved for a target")


def read_edits(path, text):
    """The edits that a log tells as refused. One that isn't spoils the log."""
    found = dict(EDIT.findall(text))
    for edit, came in found.items():
        if not came.startswith("refused"):
            refuse(f"{path} has {edit} as {came}")
    return set(found)


def needed(crates, kit):
    """The crates that have to be in a log, those with @TARGET too."""
    uses = read_uses()
    found = {it for it in crates if "@" in it}
    for crate in crates:
        found |= {it for it in all_below(crate.split("@")[0], uses, kit) if it in uses}
    return found


def edits_of(crates):
    """The edits in must-fail/ of these crates, as logs name them."""
    found = [it for crate in crates for it in glob.glob(f"crates/{crate}/must-fail/*.edit")]
    return {re.sub(r"^crates/(\w+)/must-fail/", r"\1/", it) for it in found}


def refuse_lacking(what, lacking):
    if lacking:
        refuse(f"no log has {what} {', '.join(sorted(lacking))}")


def main():
    kit, *words = sys.argv[1:]
    cut = words.index("--")
    proved, tried = set(), set()
    for path in words[cut + 1:]:
        log = read_log(path)
        proved |= log.crates
        tried |= log.edits
        print(f"{os.path.basename(path)}: {log.said}")
    crates = needed(words[:cut], kit)
    edits = edits_of(crates)
    refuse_lacking("the proof of", crates - proved)
    refuse_lacking("a try of any edit of", {it.split("/")[0] for it in edits} - {it.split("/")[0] for it in tried})
    refuse_lacking("the refusal of", edits - tried)
    print(f"edits: {len(tried)} refused, among them all {len(edits)} of the crates that are linked")


main()
