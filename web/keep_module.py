#!/usr/bin/env python3
"""keep_module.py KIT MODULE.bc CRATE: `rt lib` in the folder of a static library, keeping what is compiled.

The library is proved as ever. rattle is given a toolchain whose clang first copies the module that it is to compile.
"""
import os
import subprocess
import sys
import tempfile

kit, module, crate = sys.argv[1:]
with tempfile.TemporaryDirectory() as room:
    real, own = f"{kit}/toolchain", f"{room}/toolchain"
    os.makedirs(f"{own}/bin")
    os.symlink(f"{real}/lib", f"{own}/lib")
    for name in os.listdir(f"{real}/bin"):
        if name != "clang":
            os.symlink(f"{real}/bin/{name}", f"{own}/bin/{name}")
    with open(f"{own}/bin/clang", "w", encoding="utf-8") as file:
        file.write('#!/bin/bash\nfor word in "$@"; do case "$word" in *.bc) cp "$word" ' + repr(module)
                   + ";; esac; done\nexec -a clang " + repr(f"{real}/bin/clang") + ' "$@"\n')
    os.chmod(f"{own}/bin/clang", 0o755)
    wrapper = (
        "import os, subprocess, sys\nfirst = subprocess.Popen\n"
        "class Popen(first):\n"
        "    def __init__(self, words, *more, **how):\n"
        "        if isinstance(words, list):\n"
        f"            words = [{own!r} if it == {real!r} else it for it in words]\n"
        "        super().__init__(words, *more, **how)\n"
        "subprocess.Popen = Popen\n"
        f"path = os.path.realpath({kit + '/bin/rt'!r})\n"
        "sys.path.insert(0, os.path.dirname(path))\nsys.argv = [path, 'lib']\n"
        "exec(compile(open(path, encoding='utf-8').read(), path, 'exec'), {'__name__': '__main__', '__file__': path})\n")
    sys.exit(subprocess.run([sys.executable, "-c", wrapper], cwd=crate, check=False).returncode)
