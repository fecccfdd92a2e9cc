#!/usr/bin/env python3
"""Prints what crates are made of, and copies the licences of the kit's crates among them.

usage: materials.py KIT TO CRATE=FILE..    KIT is the kit's folder, TO gets NAME/LICENSE*, FILE is what CRATE was built as

A line for each crate that a file stands on, of which the linker keeps what is reached: its name, whose it is, the files that it is in, and the SHA-256 of the sources
in its src/ (of the lines that sha256sum prints for them, by their paths). It runs at the top of a clone.
"""
import hashlib
import os
import shutil
import sys

from linked import all_below, read_uses

kit, licences, *made = sys.argv[1:]
uses = read_uses()


def checksum(folder):
    """That of the sources in a folder."""
    lines = []
    for place, _, names in os.walk(folder):
        for name in names:
            path = os.path.join(place, name)
            with open(path, "rb") as source:
                lines.append((os.path.relpath(path, folder), hashlib.sha256(source.read()).hexdigest()))
    text = "".join(f"{digest}  {path}\n" for path, digest in sorted(lines))
    return hashlib.sha256(text.encode()).hexdigest()


stands_in = {}
for one in made:
    crate, file = one.split("=")
    for name in all_below(crate, uses, kit):
        stands_in.setdefault(name, []).append(file)
for name in sorted(stands_in, key=lambda it: (it not in uses, it)):
    own = name in uses
    folder = f"crates/{name}" if own else f"{kit}/rattle/{name}"
    print(f"{name:18}{'Bacciledru' if own else 'kit':12}{' '.join(stands_in[name]):44}{checksum(folder + '/src')}")
    texts = [] if own else sorted(it for it in os.listdir(folder) if it.startswith("LICENSE"))
    for text in texts:
        os.makedirs(f"{licences}/{name}", exist_ok=True)
        shutil.copyfile(f"{folder}/{text}", f"{licences}/{name}/{text}")
