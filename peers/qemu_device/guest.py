#!/usr/bin/env python3
"""A guest's kernel and what it starts from: busybox, the drivers, kexec with its libraries, and init.

usage: guest.py PACKAGES KERNEL OUT

PACKAGES has the unpacked packages of busybox, kexec and libc, KERNEL those of a Linux. OUT gets vmlinuz and initrd.gz.
"""
import glob
import gzip
import lzma
import os
import re
import shutil
import subprocess
import sys

WANTED = ["virtio_pci", "virtio_blk", "virtio_rng", "virtio_net", "nvme"]
LIBRARIES = ["lib/aarch64-linux-gnu/ld-linux-aarch64.so.1", "lib/aarch64-linux-gnu/libc.so.6",
             "lib/aarch64-linux-gnu/libz.so.1", "usr/lib/aarch64-linux-gnu/libxen*.so.*"]


def unpacked(path):
    with (lzma.open if path.endswith(".xz") else open)(path, "rb") as f:
        return f.read()


def modules(kernel):
    """The drivers that aren't built in, each after those that it needs: (name, bytes)."""
    found = glob.glob(f"{kernel}/**/lib/modules/*/kernel/**/*.ko*", recursive=True)
    files = {os.path.basename(it).split(".")[0].replace("-", "_"): it for it in found}
    ordered = {}

    def add(name):
        if name in files and name not in ordered:
            data = unpacked(files[name])
            for needed in re.search(rb"\0depends=([^\0]*)\0", data)[1].decode().split(","):
                add(needed.replace("-", "_"))
            ordered[name] = data

    for name in WANTED:
        add(name)
    return ordered


def fill(root, packages, kernel):
    for folder in ("bin", "sbin", "lib", "proc", "sys", "dev", "tmp"):
        os.makedirs(f"{root}/{folder}")
    shutil.copy(f"{packages}/bin/busybox", f"{root}/bin/")
    os.symlink("busybox", f"{root}/bin/sh")
    shutil.copy(f"{packages}/sbin/kexec", f"{root}/sbin/")
    for pattern in LIBRARIES:
        for path in glob.glob(f"{packages}/{pattern}"):
            shutil.copy(path, f"{root}/lib/")
    with open(f"{root}/lib/modules.list", "w") as names:
        for name, data in modules(kernel).items():
            names.write(name + "\n")
            with open(f"{root}/lib/{name}.ko", "wb") as f:
                f.write(data)
    shutil.copy(os.path.join(os.path.dirname(os.path.realpath(__file__)), "init"), root)
    os.chmod(f"{root}/init", 0o755)


def main():
    packages, kernel, out = sys.argv[1:]
    root = f"{out}/root"
    shutil.rmtree(root, ignore_errors=True)
    fill(root, packages, kernel)
    images = [it for it in glob.glob(f"{kernel}/**/vmlinuz*", recursive=True) if os.path.isfile(it)]
    shutil.copyfile(images[0], f"{out}/vmlinuz")
    names = subprocess.run("find . | LC_ALL=C sort", shell=True, cwd=root, check=True, capture_output=True).stdout
    archive = subprocess.run(["cpio", "-o", "-H", "newc", "--quiet"], cwd=root, input=names, check=True,
                             capture_output=True).stdout
    with gzip.open(f"{out}/initrd.gz", "wb", 1) as f:
        f.write(archive)
    shutil.rmtree(root)


if __name__ == "__main__":
    main()
