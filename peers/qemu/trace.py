"""Reads a log of record.py: each line of QEMU's trace as a call of a script, with what QEMU answered.

A call is its text in the script, what QEMU answered, and a remark. The answer is written as a report of `its run`
would have it, without a refusal's reason and an LPI's priority: QEMU names its errors in words of its own, which are
the remark. The remark `command` says that a poke writes a command.
"""
import re

FIELDS = re.compile(r"(?:0x([0-9a-f]+)|\b(\d+)\b)")
LPI_REGISTERS = (0x00, 0x70, 0x74, 0x78, 0x7C, 0xA0, 0xA4, 0xB0, 0xB4, 0xC0)
# lines of gicv3_its_* that tell of a look-up and not of a call
LOOKUP = ("dte", "ite", "cte", "vte")
# as many processors as `virt` counts by the lowest byte of an affinity
CLUSTER = 16


def numbers(text):
    """All numbers of a trace line after the name of the event."""
    return [int(h, 16) if h else int(d) for h, d in FIELDS.findall(text)]


def after(line, word):
    """The number after a word of a line."""
    found = re.search(word + r" (?:0x([0-9a-f]+)|(\d+))", line)
    return int(found[1], 16) if found[1] else int(found[2])


def processor(affinity):
    """A processor's number. QEMU's trace has its affinity, but for the target of a collection."""
    return (affinity >> 8) * CLUSTER + (affinity & 0xFF)


class Reader:
    """Turns lines into calls. Commands come before the register write that made QEMU take them, so they wait.

    QEMU tells nothing of a signal whose processor's LPIs are off, and drops it: so it is known where they are on.
    """

    def __init__(self, lpis_alone):
        self.lpis_alone = lpis_alone
        self.calls = []
        self.waiting = []
        self.command = None
        self.signal = None
        self.pending = {}
        self.lpis = {}

    def close(self):
        """Ends the command or the signal that is under way."""
        if self.command is not None:
            name, wrong = self.command["name"], self.command["wrong"]
            answer = f"refused {name}" if wrong else f"ran {name}"
            self.waiting.append(("step", answer, wrong))
            self.command = None
        if self.signal is not None:
            device, event, target, intid, wrong = self.signal
            done = self.lpis.get(target) and intid is not None and not wrong
            answer = f"delivered {target} {intid}" if done else "dropped"
            self.calls.append((f"signal {device} {event}", answer, wrong))
            self.signal = None

    def its_write(self, line):
        """QEMU tells of a write after the commands that it took for it."""
        offset, value, size = (after(line, w) for w in ("offset", "data", "size"))
        self.calls.append((f"write {offset:#x} {size} {value:#x}", "ok", ""))
        self.calls += self.waiting
        self.waiting = []

    def its_read(self, line):
        offset, value, size = (after(line, w) for w in ("offset", "data", "size"))
        self.calls.append((f"read {offset:#x} {size}", f"value {value:#x}", ""))

    def redist(self, line, write):
        affinity, offset, value, size = (after(line, w) for w in ("redistributor", "offset", "data", "size"))
        cpu = processor(affinity)
        if offset == 0 and write:
            self.lpis[cpu] = value & 1
        if offset in LPI_REGISTERS and write:
            self.calls.append((f"rwrite {cpu} {offset:#x} {size} {value:#x}", "ok", ""))
        elif offset in LPI_REGISTERS:
            self.calls.append((f"rread {cpu} {offset:#x} {size}", f"value {value:#x}", ""))

    def look_up(self, line):
        """What a look-up of a signal found: the event's LPI, the collection's processor."""
        if self.signal is None:
            return
        if "gicv3_its_ite_read " in line and "valid 1" in line:
            self.signal[3] = after(line, "intid")
        if "gicv3_its_cte_read " in line and "valid 1" in line:
            self.signal[2] = after(line, "RDBase")

    def its(self, event, line):
        what = event[len("gicv3_its_"):]
        if what[:3] in LOOKUP:
            self.look_up(line)
        elif what.startswith("cmd_"):
            if what == "cmd_unknown" or what.startswith("cmd_v"):
                self.command["wrong"] = what
            else:
                self.command["name"] = what[4:]
        else:
            self.close()
            if what == "write":
                self.its_write(line)
            elif what == "read":
                self.its_read(line)
            elif what == "process_command":
                self.command = {"name": f"{numbers(line)[-1]:#x}", "wrong": ""}
            elif what == "translation_write":
                self.signal = [after(line, "requester_id"), after(line, "data"), None, None, ""]

    def line(self, line):
        event = line.split(" ", 1)[0]
        if event.startswith("gicv3_its_"):
            self.its(event, line)
        elif event in ("mem", "command"):
            self.close()
            address, data = line.split()[1:3]
            self.calls.append((f"poke {address} {data}", "ok", event if event == "command" else ""))
        elif event == "pending":
            self.close()
            cpu, data = line.split()[1:3]
            self.pending[processor(int(cpu))] = bytes.fromhex(data)
        elif event in ("gicv3_redist_write", "gicv3_redist_badwrite", "gicv3_redist_read"):
            self.close()
            self.redist(line, event.endswith("write"))
        elif event == "gicv3_icc_iar1_read":
            self.close()
            self.take(line)
        elif not event.startswith("gicv3_"):
            self.remark(line)

    def take(self, line):
        cpu, intid = processor(after(line, "cpu")), after(line, "value")
        if intid >= 8192:
            self.calls.append((f"take {cpu}", f"lpi {intid}", ""))
        elif self.lpis_alone and intid == 1023:
            self.calls.append((f"take {cpu}", "none", ""))

    def remark(self, line):
        """A line that is no trace event: an error of the guest, as QEMU sees it."""
        if self.command is not None:
            self.command["wrong"] = line.strip()
        elif self.signal is not None:
            self.signal[4] = line.strip()


def read_log(path, lpis_alone):
    """All calls of a log, and the LPIs that QEMU's pending tables held at the end, by processor.

    Where the guest has no interrupts but LPIs, an acknowledgement that gets none says that none is pending.
    """
    reader = Reader(lpis_alone)
    with open(path) as log:
        for line in log:
            reader.line(line)
    reader.close()
    left = {}
    for cpu, data in reader.pending.items():
        left[cpu] = [8 * (1024 + i) + b for i, byte in enumerate(data) for b in range(8) if byte >> b & 1]
    return reader.calls, left
