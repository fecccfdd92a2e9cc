"""Boots kernels with an init that plays operations, and runs `its`."""
import concurrent.futures
import ctypes
import functools
import hashlib
import os
import shutil
import struct
import subprocess
import tempfile

import answers

QEMU = ["qemu-system-aarch64", "-M", "virt,gic-version=3,virtualization=on", "-cpu", "cortex-a72", "-smp", "1",
        "-m", "512", "-icount", "shift=1,sleep=off", "-display", "none", "-monitor", "none", "-nic", "none",
        "-no-reboot"]
# Four processors that go beside each other, by the host's clock, on one processor of the host.
THREADS = ["taskset", "-c", os.environ.get("PROCESSOR", "3"), "qemu-system-aarch64", "-M", QEMU[2], "-cpu", QEMU[4],
           "-smp", "4", "-m", "512", "-accel", "tcg,thread=multi", *QEMU[11:]]
QUIET = "rcupdate.rcu_expedited=1 rcupdate.rcu_cpu_stall_suppress=1 nowatchdog"
WORDS = "quiet loglevel=4 console=ttyAMA0 rdinit=/init nokaslr panic=-1"


def kernels(folder, wanted=()):
    """The paths of the kernels that were fetched, by version."""
    there = sorted(os.listdir(f"{folder}/kernels"), key=lambda name: [int(part) for part in name.split(".")])
    return [(name, f"{folder}/kernels/{name}") for name in there if not wanted or name in wanted]


def archive(folder, operations, out):
    """The first file system: init, and what it plays."""
    with tempfile.TemporaryDirectory() as root:
        shutil.copy(f"{folder}/init", f"{root}/init")
        with open(f"{root}/operations", "w") as file:
            file.write(operations)
        with open(out, "wb") as file:
            subprocess.run(["cpio", "-o", "-H", "newc", "--quiet"], cwd=root, input=b"init\noperations\n", stdout=file,
                           check=True)


def short_turns():
    """The host's processor goes from thread to thread each tenth of a millisecond (sched_setattr, from Linux 6.12 on)."""
    attributes = struct.pack("<IIQiIQQQ", 48, 0, 0, os.nice(0), 0, 100_000, 0, 0)
    ctypes.CDLL(None).syscall(274 if os.uname().machine == "aarch64" else 314, 0, attributes, 0)


def run_qemu(folder, kernel, operations, seconds, qemu=QEMU):
    """What a boot's console says, and QEMU's status."""
    with tempfile.TemporaryDirectory() as work:
        archive(folder, operations, f"{work}/initrd")
        command = ["nice", "-n", os.environ.get("NICE", "10"), "timeout", str(seconds), *qemu, "-kernel", kernel, "-initrd", f"{work}/initrd",
                   "-append", f"{WORDS} {QUIET}" if qemu is THREADS else WORDS, "-serial", f"file:{work}/console"]
        ended = subprocess.run(command, stdout=subprocess.DEVNULL, stderr=subprocess.DEVNULL,
                               preexec_fn=short_turns if qemu is THREADS else None)
        with open(f"{work}/console", errors="replace") as file:
            return file.read(), ended.returncode


@functools.lru_cache
def checksum(file):
    with open(file, "rb") as opened:
        return hashlib.sha256(opened.read()).hexdigest()


def kept_at(folder, kernel, operations):
    """Where a console is kept: by the checksum of all that it depends on."""
    version = subprocess.run([QEMU[0], "--version"], stdout=subprocess.PIPE, text=True, check=True).stdout
    made_of = [version, *QEMU, WORDS, checksum(kernel), checksum(f"{folder}/init"), operations]
    return f"{os.environ['CONSOLES']}/{hashlib.sha256(repr(made_of).encode()).hexdigest()}"


def console(folder, kernel, operations, seconds):
    """As run_qemu; with CONSOLES, a folder, from there if an earlier boot of the same ended well."""
    kept = kept_at(folder, kernel, operations) if "CONSOLES" in os.environ else None
    if kept and os.path.isfile(kept):
        with open(kept, errors="replace") as file:
            return file.read(), 0
    said, status = run_qemu(folder, kernel, operations, seconds)
    if kept and status == 0:
        with open(f"{kept}.new", "w") as file:
            file.write(said)
        os.replace(f"{kept}.new", kept)
    return said, status


def boot(folder, kernel, scripts, seconds):
    """One boot: the kernel's name, the answers of the scripts that it began, and what the console said besides."""
    operations = "\n".join(line for script in scripts for line in script.operations) + "\n"
    said, status = console(folder, kernel, operations, seconds)
    version, told, trouble = answers.read_answers(said)
    if status:
        trouble.append(f"QEMU ended with status {status}")
    return version, told, trouble


def play(folder, kernel, scripts, seconds=1200):
    """KVM's answers to each script. Where a kernel crashes in a script, which then has too few, the others go on in
    another boot."""
    version, told, trouble = "", [], []
    while len(told) < len(scripts):
        version, more, said = boot(folder, kernel, scripts[len(told):], seconds)
        told += more or [[]]
        trouble += said
    return version, told, trouble


def several(work, items):
    """The results of some pieces of work, a few at a time: each runs a program that takes one processor."""
    with concurrent.futures.ThreadPoolExecutor(int(os.environ.get("JOBS", "4"))) as pool:
        return list(pool.map(lambda item: work(*item), items))


def run_its(program, text, word="run"):
    """What `its` prints, and its status."""
    ended = subprocess.run(["nice", "-n", "10", program, word], input=text.encode(), stdout=subprocess.PIPE)
    return ended.stdout.decode(), ended.returncode
