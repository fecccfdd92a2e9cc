"""A QEMU with a Linux guest: the guest by its serial line, QEMU by QMP, and its bus by the qtest protocol."""
import atexit
import dataclasses
import json
import os
import re
import signal
import socket
import subprocess
import time

DEVICE = "arm-gicv3-its-bacciledru"
RAM = 0x40000000
GICD_CTLR = 0x08000000
GROUP_1 = 2
FIRMWARE = "/usr/share/qemu-efi-aarch64/QEMU_EFI.fd"
PATIENCE = int(os.environ.get("PATIENCE", "1"))     # how many times as long each watchdog waits


@dataclasses.dataclass
class Options:
    """What a machine has.

    QEMU doesn't migrate an NVMe device, so a guest that is to be saved has none. Disks answer after `latency` ns. Each
    of `disks` is a file, or None for an empty one; with `ports` each has a port of its own. Without `linux` there is
    no guest, and what is written to RAM runs (bare.py). `kernel` is one of `run.sh kernels`; with `firmware` EDK2
    starts it, and tells it of the machine by ACPI.
    """
    processors: int = 4
    memory: object = 512
    disks: tuple = (None, None)
    more: tuple = ()
    words: str = ""
    nvme: bool = True
    latency: int = 0
    linux: bool = True
    ports: bool = False
    machine: str = ""
    reboot: bool = False
    kernel: str = ""
    cpu: str = "cortex-a57"
    firmware: bool = False


class Vm:
    """`library` chooses the translator. With `times`, a file, times are kept and no record."""
    processes = []

    def __init__(self, work, name, library, incoming=None, times=None, record=True, **options):
        self.base = os.path.join(work, name)
        self.library = library
        self.record = record
        self.options = Options(**options)
        self.text = ""
        for suffix in (".serial", ".qmp", ".qtest"):
            if os.path.exists(self.base + suffix):
                os.unlink(self.base + suffix)
        line = self.machine_words(work) + self.guest_words(work) + self.disk_words()
        line += [] if self.options.reboot else ["-no-reboot"]
        line += (["-incoming", incoming] if incoming else []) + list(self.options.more)
        self.process = subprocess.Popen(line, stdin=subprocess.DEVNULL, stdout=open(self.base + ".err", "w"),
                                        stderr=subprocess.STDOUT, env=self.environment(times))
        self.processes.append(self.process)
        self.serial = self.connect(".serial")
        self.monitor = self.connect(".qmp").makefile("rw")
        self.bus = self.connect(".qtest").makefile("rw")
        self.monitor.readline()
        self.qmp("qmp_capabilities")

    @classmethod
    def end_all(cls):
        for process in cls.processes:
            process.kill()
            process.wait()
        cls.processes.clear()

    def machine_words(self, work):
        of = self.options
        its = f",its-device={DEVICE}" if self.library else ""
        return [f"{work}/qemu-system-aarch64", "-M", f"virt,gic-version=3,its=on{its}{of.machine}", "-cpu", of.cpu,
                "-smp", str(of.processors), "-m", str(of.memory), "-nodefaults", "-display", "none", "-d",
                "guest_errors", "-D", self.base + ".log", "-chardev",
                f"socket,id=line,path={self.base}.serial,server=on,wait=off,logfile={self.base}.console", "-serial",
                "chardev:line", "-qmp", f"unix:{self.base}.qmp,server=on,wait=off", "-qtest",
                f"unix:{self.base}.qtest,server=on,wait=off", "-qtest-log", "/dev/null"]

    def guest_words(self, work):
        of = self.options
        if not of.linux:            # the first processor begins where RAM does
            return ["-device", f"loader,addr={RAM:#x},cpu-num=0"]
        files = f"{work}/kernels/{of.kernel}/guest" if of.kernel else work
        return (["-bios", FIRMWARE] if of.firmware else []) + [
            "-kernel", f"{files}/vmlinuz", "-initrd", f"{files}/initrd.gz", "-append",
            f"console=ttyAMA0 quiet panic=-1 no_console_suspend patience={PATIENCE} " + of.words]

    def disk_words(self):
        of = self.options
        empty = f"driver=null-co,size=1073741824,read-zeroes=on,latency-ns={of.latency}"
        line = []
        for i, it in enumerate(of.disks):
            bus = f",bus=port{i}" if of.ports else ""
            line += ["-device", f"pcie-root-port,id=port{i},chassis={i + 1}"] if of.ports else []
            line += ["-blockdev", f"{f'driver=file,filename={it}' if it else empty},node-name=disk{i}", "-device",
                     f"virtio-blk-pci,drive=disk{i},num-queues={of.processors}{bus}"]
        if of.nvme:
            line += ["-blockdev", empty + ",node-name=disk2", "-device", "nvme,drive=disk2,serial=one"]
        return line + ["-netdev", "user,id=net", "-device", "virtio-net-pci,netdev=net,romfile=", "-device",
                       "virtio-rng-pci"]

    def environment(self, times):
        kept = {"ITS_TIMES": times} if times else {"ITS_RECORD": self.base + ".record"} if self.record else {}
        return {**os.environ, **kept}

    def connect(self, suffix):
        for _ in range(300):
            try:
                it = socket.socket(socket.AF_UNIX)
                it.connect(self.base + suffix)
                return it
            except OSError:
                if self.process.poll() is not None:
                    break
                time.sleep(0.1)
        raise RuntimeError("QEMU ended: " + self.errors())

    def errors(self):
        with open(self.base + ".err") as f:
            return f.read()[-2000:]

    def guest_errors(self):
        with open(self.base + ".log") as f:
            return [line.strip() for line in f if "its" in line.lower() or "gicr" in line.lower()]

    def qmp(self, name, **arguments):
        self.monitor.write(json.dumps({"execute": name, "arguments": arguments}) + "\n")
        self.monitor.flush()
        while True:
            answer = json.loads(self.monitor.readline())
            if "error" in answer:
                raise RuntimeError(f"{name}: {answer['error']}")
            if "return" in answer:
                return answer["return"]

    def job(self, name, **arguments):
        """A command that QEMU makes as a job, to its end."""
        self.qmp(name, **{"job-id": "job", **arguments})
        while True:
            job, = [it for it in self.qmp("query-jobs") if it["id"] == "job"]
            if job["status"] == "concluded":
                self.qmp("job-dismiss", id="job")
                if "error" in job:
                    raise RuntimeError(f"{name}: {job['error']}")
                return
            time.sleep(0.05)

    def snapshots(self, path):
        """A file that snapshots go to, as the block node `snapshots`."""
        if os.path.exists(path):
            os.unlink(path)
        self.job("blockdev-create", options={"driver": "file", "filename": path, "size": 0})
        self.qmp("blockdev-add", **{"driver": "file", "filename": path, "node-name": "snapshots-file"})
        self.job("blockdev-create", options={"driver": "qcow2", "file": "snapshots-file", "size": 1 << 20})
        self.qmp("blockdev-add", **{"driver": "qcow2", "file": "snapshots-file", "node-name": "snapshots"})

    def info(self):
        """What the device tells of itself, without its name."""
        return self.qmp("human-monitor-command", **{"command-line": "info pic"}).split(DEVICE + ":", 1)[-1]

    def told(self, pattern):
        """A number in what the device tells."""
        return int(re.search(pattern + r"\D*(\d+)", self.info())[1])

    def pending(self):
        """How many LPIs are pending, as the device tells."""
        return sum(int(count) for count in re.findall(r"(\d+) pending", self.info()))

    def of_bus(self, line):
        self.bus.write(line + "\n")
        self.bus.flush()
        return self.bus.readline().split()

    def deliver(self, on):
        """Whether the distributor gives interrupts of group 1 to processors. What comes meanwhile stays pending."""
        value = int(self.of_bus(f"readl {GICD_CTLR:#x}")[1], 16)
        self.of_bus(f"writel {GICD_CTLR:#x} {value | GROUP_1 if on else value & ~GROUP_1:#x}")

    def load(self, address):
        return int(self.of_bus(f"readq {address:#x}")[1], 16)

    def store(self, address, value):
        self.of_bus(f"writeq {address:#x} {value:#x}")

    def store_bytes(self, address, data):
        self.of_bus(f"write {address:#x} {len(data):#x} 0x{data.hex()}")

    def wait(self, pattern, seconds):
        """What the guest writes before the pattern. The watchdog ends a guest that doesn't."""
        seconds *= PATIENCE
        end = time.time() + seconds
        while True:
            self.match = re.search(pattern, self.text)
            if self.match:
                before, self.text = self.text[:self.match.start()], self.text[self.match.end():]
                return before
            self.serial.settimeout(max(end - time.time(), 0.01))
            try:
                data = self.serial.recv(65536)
            except socket.timeout:
                raise TimeoutError(f"watchdog: no {pattern!r} in {seconds} s after: {self.text[-600:]}") from None
            if not data:
                raise EOFError("QEMU ended: " + self.text[-600:] + self.errors())
            self.text += data.decode(errors="replace").replace("\r", "")

    def ready(self, seconds=300):
        since = time.time()
        self.wait(r"guest: ready ([^\n]*)\n", seconds)
        return self.match[1], time.time() - since

    def send(self, line):
        self.serial.sendall((line + "\n").encode())

    def done(self, seconds=180):
        """What the guest said of the line that it was sent."""
        said = self.wait(r"guest: status (\d+)\n", seconds)
        if "HANGS" in said:
            raise RuntimeError(said)
        return said

    def run(self, line, seconds=180):
        self.send(line)
        return self.done(seconds)

    def rest(self):
        """What a guest that stands still wrote until then, and nobody read."""
        self.serial.settimeout(0.5)
        try:
            while data := self.serial.recv(65536):
                self.text += data.decode(errors="replace").replace("\r", "")
        except socket.timeout:
            pass
        return self.text

    def seconds(self):
        """The processor time that QEMU had."""
        with open(f"/proc/{self.process.pid}/stat") as f:
            fields = f.read().rsplit(") ", 1)[1].split()
        return (int(fields[11]) + int(fields[12])) / os.sysconf("SC_CLK_TCK")

    def end_record(self):
        """From the next signal on nothing is recorded."""
        if self.library and self.record:
            self.process.send_signal(signal.SIGUSR2)

    def interrupts(self):
        """Of each interrupt that goes through the ITS: how often each processor had it."""
        found = {}
        for line in self.run("grep ITS- /proc/interrupts").splitlines():
            fields = line.split()
            chip = [i for i, field in enumerate(fields) if field.startswith("ITS-")]
            if chip:
                found[fields[-1]] = [int(count) for count in fields[1:chip[0]]]
        return found

    def ended(self, seconds):
        """The guest ends QEMU. Its line is read meanwhile, or QEMU would wait for a reader."""
        try:
            self.wait(r"(?!)", seconds)
        except EOFError:
            self.process.wait(60)

    def end(self):
        if self.process.poll() is None:
            try:
                self.qmp("quit")
                self.process.wait(60)
            except (OSError, ValueError, subprocess.TimeoutExpired):
                self.process.kill()
                self.process.wait()

    def states(self):
        """The checksums that watch.c wrote: (when, checksum, how many LPIs were pending)."""
        with open(self.base + ".record") as f:
            fields = [line.split() for line in f if line.startswith("# state")]
        return [(f[2], f[3], int(f[5])) for f in fields]


atexit.register(Vm.end_all)
