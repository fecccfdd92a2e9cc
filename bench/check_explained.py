#!/usr/bin/env python3
"""Checks the lines that `its explain` names, over the examples and their variations:

    bench/check_explained.py PROGRAM
    bench/check_explained.py --tried LOG FOLDER

PROGRAM is the built `its`. LOG is what `rt try --cases FOLDER -- explain` printed in crates/its_cli,
where no program is built. A small model of registers, guest memory, maps and pending LPIs is kept
here by the calls and the replies of what was explained, with the line whose command last mapped or
unmapped each thing; nothing of it comes from the program's own books. Each sentence that names a
line has to name the model's, and what is said of pending LPIs has to be so in the model. It prints
a line for each sentence that is wrong, and ends with status 1 if there is any.
"""
import pathlib
import re
import subprocess
import sys

ENTRY = re.compile(r"^(\d+) (\d+)\.(\d+) (.*) -> (.*)$")
NAMES = re.compile(r"\b(?:by|since|of) line (\d+)")
OPS = {1: "movi", 3: "int", 4: "clear", 5: "sync", 8: "mapd", 9: "mapc", 10: "mapti", 11: "mapi",
       12: "inv", 13: "invall", 14: "movall", 15: "discard"}


def number(text):
    return int(text, 0)


class Translator:
    """The registers and the maps of a translator, each answer with the line that changed it."""

    def __init__(self):
        self.cbaser = self.creadr = self.cwriter = 0
        self.baser = [0x0107000000000200, 0x0407000000000200]
        self.enabled = False
        self.devices, self.events, self.collections = {}, {}, {}
        self.lines = {}

    def place(self):
        return (self.cbaser >> 16 & (1 << 36) - 1) * 65536 + self.creadr

    def advance(self):
        size = ((self.cbaser & 255) + 1) * 4096
        self.creadr = (self.creadr + 32) % size

    def unmap_events(self, dev, line):
        for key in [key for key in self.events if key[0] == dev]:
            del self.events[key]
            self.lines["event", key] = line

    def unmap_devices(self, line):
        for dev in list(self.devices):
            self.unmap_events(dev, line)
            self.lines["device", dev] = line
        self.devices = {}

    def unmap_collections(self, line):
        for icid in self.collections:
            self.lines["collection", icid] = line
        self.collections = {}


class Model:
    """What a script's machine has, as far as its calls and replies tell."""

    def __init__(self, script):
        self.words = [line.split() for line in script.split("\n")]
        self.first = [line[0] if line else "" for line in self.words]
        self.its = [Translator(), Translator()]
        self.memory, self.writers = {}, {}
        self.linux = "linux" in self.first
        self.profile = 1
        self.vcpus = 1
        # LPI tables that are read are none of this model's, so pending sets are compared where
        # there are none.
        self.whole = not {"restore", "gicr", "precopy"} & set(self.first)
        self.known = "restore" not in self.first
        self.pending = {}
        self.describe()

    def describe(self):
        for at, line in enumerate(self.words, 1):
            if line[:1] == ["phase"] or line[:1] in (["migrate"], ["precopy"]):
                break
            if line[:1] == ["profile"]:
                self.profile = number(line[1])
            elif line[:1] in (["vcpus"], ["processors"]):
                self.vcpus = number(line[1])
            elif line[:1] == ["bytes"]:
                self.write(number(line[1]), bytes.fromhex(line[2]), at)
            elif line[:1] == ["word"]:
                self.write(number(line[1]), number(line[2]).to_bytes(8, "little"), at)
            elif line[:1] in (["restore"], ["brestore"]):
                self.restore(self.its[line[0] == "brestore"], [number(word) for word in line[1:]])

    @staticmethod
    def restore(its, values):
        ctlr, its.cbaser, its.creadr, its.cwriter, its.baser[0], its.baser[1] = values
        its.enabled = bool(ctlr & 1)

    def write(self, addr, data, line):
        for at, byte in enumerate(data):
            self.memory[addr + at] = byte
            self.writers[(addr + at) // 32] = line

    def is_pending(self, vcpu, intid):
        return intid in self.pending.get(vcpu, set())

    def set(self, vcpu, intid):
        self.pending.setdefault(vcpu, set()).add(intid)

    def clear(self, vcpu, intid):
        self.pending.get(vcpu, set()).discard(intid)

    def move(self, intid, source, target):
        if source != target and self.is_pending(source, intid):
            self.clear(source, intid)
            self.set(target, intid)


def fields(data):
    """A command's name and fields, by its 32 bytes."""
    words = [int.from_bytes(data[at:at + 8], "little") for at in (0, 8, 16, 24)]
    return {"op": OPS.get(words[0] & 255), "dev": words[0] >> 32, "ev": words[1] & 0xffffffff,
            "intid": words[1] >> 32, "icid": words[2] & 0xffff, "valid": words[2] >> 63,
            "vcpu": words[2] >> 16 & (1 << 35) - 1, "to": words[3] >> 16 & (1 << 35) - 1,
            "bits": (words[1] & 31) + 1, "itt": words[2] >> 8 & (1 << 44) - 1}


class Checker:
    """The sentences of one script."""

    def __init__(self, name, script):
        self.name, self.model = name, Model(script)
        self.checked = self.wrong = 0
        self.at, self.said = "", ""

    def fail(self, why):
        self.wrong += 1
        print(f"{self.name}: {self.at}\n    {self.said}\n    {why}")

    def expect(self, what, told, right):
        self.checked += 1
        if told != right:
            self.fail(f"{what}: told {told}, the model has {right}")

    def named(self, its, kind, key, found):
        """A line that is said to have changed an answer; `by the tables` names none."""
        right = its.lines.get((kind, key))
        self.expect(f"line of {kind} {key}", int(found) if found else None, right)

    def entry(self, line, said):
        self.at, self.said = line, said
        _, _, _, call, reply = ENTRY.match(line).groups()
        at, text = re.match(r"line (\d+): (.*)", said).groups()
        at = int(at)
        words = call.split()
        its = self.model.its[words[0] == "b"]
        words = words[1:] if words[0] == "b" else words
        first = [word for word in self.model.words[at - 1] if word != "b"][0]
        told = "poke" if first in ("word", "command") else first
        self.expect("the call's own line", words[0], told)
        before = self.checked
        getattr(self, words[0], self.other)(its, words, reply, at, text)
        named = len(NAMES.findall(text))
        if self.checked - before < named:
            self.fail(f"{named} lines are named, and {self.checked - before} were looked at")

    def other(self, its, words, reply, at, text):
        pass

    def poke(self, its, words, reply, at, text):
        if reply == "ok":
            self.model.write(number(words[1]), bytes.fromhex(words[2]), at)

    def dma(self, its, words, reply, at, text):
        if reply == "ok":
            self.model.write(number(words[2]), bytes.fromhex(words[3]), at)
            return
        found = re.search(r"device (\d+)", text)
        event = re.search(r"event (\d+)", text)
        if reply.startswith("delivered") and found and event:
            for its in self.model.its:
                if (int(found[1]), int(event[1])) in its.events or len(its.events) == 0:
                    return self.signal(its, ["signal", found[1], event[1]], reply, at, text)

    def write(self, its, words, reply, at, text):
        off, size, value = number(words[1]), number(words[2]), number(words[3])
        if off == 0:
            bases = its.cbaser & its.baser[0] & its.baser[1]
            its.enabled = bool(value & 1) and (its.enabled or bool(bases >> 63))
            return
        low = off & ~7
        old = {0x80: its.cbaser, 0x88: its.cwriter, 0x100: its.baser[0], 0x108: its.baser[1]}
        if low not in old:
            return
        if size == 4:
            shift = 32 * (off % 8 == 4)
            value = old[low] & ~(0xffffffff << shift) | (value & 0xffffffff) << shift
        if low == 0x88:
            offset = value & 0xfffe0
            if offset < ((its.cbaser & 255) + 1) * 4096:
                its.cwriter = offset
        elif not its.enabled:
            self.write_base(its, low, value, at)

    def write_base(self, its, low, value, at):
        if low == 0x80:
            its.cbaser, its.creadr, its.cwriter = value & 0xB8EFFFFFFFFF0CFF, 0, 0
            return
        table = low == 0x108
        mask = 0xB8E0FFFFFFFFFCFF if table else 0xF8E0FFFFFFFFFCFF
        kept = value & mask | (0x0407000000000200 if table else 0x0107000000000200)
        same = kept == its.baser[table]
        its.baser[table] = kept
        if self.model.linux and same:
            return
        if table:
            its.unmap_collections(at)
        else:
            its.unmap_devices(at)

    def signal(self, its, words, reply, at, text):
        dev, ev = int(words[1]), int(words[2])
        told = reply.split()
        if told[0] == "delivered":
            self.delivered(its, dev, ev, int(told[1]), int(told[2]), text)
        elif told[1] == "no-device":
            found = re.search(r"isn't mapped(?: since line (\d+))?", text)
            self.named(its, "device", dev, found[1])
        elif told[1] == "no-event":
            found = re.search(r"isn't mapped(?: since line (\d+))?", text)
            self.named(its, "event", (dev, ev), found[1])
        elif told[1] == "no-collection":
            found = re.search(r"collection (\d+) of the event isn't mapped(?: since line (\d+))?",
                              text)
            if (dev, ev) in its.events:
                self.expect("collection", int(found[1]), its.events[dev, ev][1])
            self.named(its, "collection", int(found[1]), found[2])

    def delivered(self, its, dev, ev, vcpu, intid, text):
        by = r" by (?:line (\d+)|the tables)"
        found = re.match(rf"device {dev} is mapped{by}, event {ev} is LPI {intid} of collection "
                         rf"(\d+){by}, which goes to processor {vcpu}{by}(.*)", text)
        if not found:
            return self.fail("the sentence has another form")
        icid = int(found[2])
        self.named(its, "device", dev, found[1])
        self.named(its, "event", (dev, ev), found[3])
        self.named(its, "collection", icid, found[4])
        if (dev, ev) in its.events:
            self.expect("event", (intid, icid), its.events[dev, ev])
        if icid in its.collections:
            self.expect("collection", vcpu, its.collections[icid])
        if self.model.whole:
            self.expect("pending already", "pending there already" in found[5],
                        self.model.is_pending(vcpu, intid))
        self.model.set(vcpu, intid)

    def take(self, its, words, reply, at, text):
        vcpu = int(words[1])
        if reply != "none":
            self.model.clear(vcpu, int(reply.split()[1]))
        elif self.model.whole:
            pending = self.model.pending.get(vcpu, set())
            found = re.match(r"LPI (\d+) is pending", text)
            self.expect("what is pending", int(found[1]) if found else None,
                        min(pending) if pending else None)

    def claim(self, its, words, reply, at, text):
        if reply != "none":
            self.model.clear(int(words[1]), int(words[2]))

    def step(self, its, words, reply, at, text):
        told = reply.split()
        if told[0] not in ("ran", "refused"):
            return
        place = its.place()
        writer = self.model.writers.get(place // 32)
        found = re.match(r"(?:not done, of (?:line (\d+)|0x\w+, which no line wrote): |by line (\d+) |"
                         r"by the command at )", text)
        self.expect("the command's line", int(found[1] or found[2] or 0), writer or 0)
        data = bytes(self.model.memory.get(place + n, 0) for n in range(32))
        its.advance()
        command = fields(data)
        line = writer or at
        if told[0] == "refused":
            return self.refused(its, command, told[2], text)
        self.expect("the command", told[1], command["op"])
        getattr(self, "ran_" + command["op"], self.ran_other)(its, command, line, text)

    def refused(self, its, command, reason, text):
        dev, ev = command["dev"], command["ev"]
        since = r"(?: since line (\d+))?;"
        if reason == "no-device":
            found = re.search(rf"device {dev} isn't mapped{since}", text)
            self.named(its, "device", dev, found[1])
        elif reason == "no-event":
            found = re.search(rf"event {ev} of device {dev} isn't mapped{since}", text)
            self.named(its, "event", (dev, ev), found[1])
        elif reason == "no-collection":
            found = re.search(rf"collection (\d+) isn't mapped{since}", text)
            self.named(its, "collection", int(found[1]), found[2])
        elif reason == "event-range":
            found = re.search(r"EventID bits by (?:line (\d+)|the tables)", text)
            self.named(its, "device", dev, found[1])

    def ran_other(self, its, command, line, text):
        pass

    def ran_mapd(self, its, command, line, text):
        dev = command["dev"]
        found = re.search(r"it was mapped by (?:line (\d+)|the tables)", text)
        if found:
            self.named(its, "device", dev, found[1])
        count = len([key for key in its.events if key[0] == dev])
        told = re.search(r"its (\d+) events?", text)
        if told and self.model.known:
            self.expect("events that are unmapped", int(told[1]), count)
        its.unmap_events(dev, line)
        if command["valid"]:
            data = (command["bits"], command["itt"])
            if its.devices.get(dev) != data:
                its.lines["device", dev] = line
            its.devices[dev] = data
        elif dev in its.devices or "isn't mapped" not in text:
            its.devices.pop(dev, None)
            its.lines["device", dev] = line

    def ran_mapc(self, its, command, line, text):
        icid, target = command["icid"], command["vcpu"]
        before = its.collections.get(icid)
        found = re.search(r"already, by (?:line (\d+)|the tables)", text)
        if found:
            self.named(its, "collection", icid, found[1])
        if command["valid"]:
            if before is not None and self.model.profile == 2:
                for event in its.events.values():
                    if event[1] == icid:
                        self.model.move(event[0], before, target)
            if before != target and not found:
                its.lines["collection", icid] = line
            its.collections[icid] = target
        elif before is not None or "isn't mapped" not in text:
            its.collections.pop(icid, None)
            its.lines["collection", icid] = line

    def ran_mapti(self, its, command, line, text):
        self.map_event(its, command, command["intid"], line, text)

    def ran_mapi(self, its, command, line, text):
        self.map_event(its, command, command["ev"], line, text)

    def map_event(self, its, command, intid, line, text):
        key = (command["dev"], command["ev"])
        found = re.search(r"stays LPI (\d+) of collection (\d+), as it was mapped by "
                          r"(?:line (\d+)|the tables)", text)
        if found:
            self.named(its, "event", key, found[3])
            if key in its.events:
                self.expect("event", (int(found[1]), int(found[2])), its.events[key])
            return
        self.expect("an event that wasn't mapped", key in its.events, False)
        if self.model.known:
            self.expect("collection that isn't mapped", "which isn't mapped" in text,
                        command["icid"] not in its.collections)
        its.events[key] = (intid, command["icid"])
        its.lines["event", key] = line

    def ran_movi(self, its, command, line, text):
        key, icid = (command["dev"], command["ev"]), command["icid"]
        if "already, so nothing" in text:
            return
        found = re.search(r"from processor (\d+) to processor (\d+)(.*)", text)
        intid = its.events[key][0] if key in its.events else None
        if found and self.model.whole:
            source, target = int(found[1]), int(found[2])
            self.expect("from", source, its.collections[its.events[key][1]])
            self.expect("to", target, its.collections[icid])
            was, had = (self.model.is_pending(vcpu, intid) for vcpu in (source, target))
            told = "pending already" if had and not was else "too" if was else "isn't pending"
            self.expect("what went", told in found[3], True)
            self.model.move(intid, source, target)
        if key in its.events:
            its.events[key] = (intid, icid)
        its.lines["event", key] = line

    def spot(self, its, command):
        event = its.events.get((command["dev"], command["ev"]))
        return (its.collections.get(event[1]), event[0]) if event else (None, None)

    def ran_int(self, its, command, line, text):
        vcpu, intid = self.spot(its, command)
        if self.model.whole:
            self.expect("pending already", "there already" in text,
                        self.model.is_pending(vcpu, intid))
        self.model.set(vcpu, intid)

    def ran_clear(self, its, command, line, text):
        vcpu, intid = self.spot(its, command)
        if self.model.whole:
            self.expect("pending", "any more" in text, self.model.is_pending(vcpu, intid))
        self.model.clear(vcpu, intid)

    def ran_discard(self, its, command, line, text):
        key = (command["dev"], command["ev"])
        vcpu, intid = self.spot(its, command)
        if self.model.whole:
            self.expect("pending", "any more" in text, self.model.is_pending(vcpu, intid))
            self.expect("nowhere", "no LPI is cleared" in text, vcpu is None)
        self.model.clear(vcpu, intid)
        its.events.pop(key, None)
        its.lines["event", key] = line

    def ran_movall(self, its, command, line, text):
        source, target = command["vcpu"], command["to"]
        if self.model.whole and source != target:
            count = len(self.model.pending.get(source, set()))
            found = re.search(r"(\d+) pending LPI", text)
            self.expect("pending LPIs", int(found[1]) if found else 0, count)
        for intid in list(self.model.pending.get(source, set())):
            self.model.move(intid, source, target)

    def text(self, said):
        """All that was said of the script."""
        line, words, last = None, [], 0
        for text in said.split("\n") + [""]:
            if text.startswith("        "):
                words.append(text.strip())
            else:
                if line and words and ENTRY.match(line):
                    self.entry(line, " ".join(words))
                if len(text) > 100 and not text.startswith(("refused ", "differs ")):
                    self.at, self.said = text, ""
                    self.fail("the line has more than 100 columns")
                if text.startswith("    ") and line and not words:
                    line += text[4:] if last == 100 else " " + text[4:]
                else:
                    line, words = text, []
                last = len(text)


def examples():
    top = pathlib.Path(__file__).resolve().parent.parent / "examples"
    return sorted(top.glob("*.its")) + sorted((top / "variations").glob("*.its"))


def tried(log, folder):
    for part in re.split(r"^== ", pathlib.Path(log).read_text(encoding="utf-8"), flags=re.M)[1:]:
        name, _, said = part.partition("\n")
        yield name, (pathlib.Path(folder) / name).read_text(encoding="utf-8"), said


def explained(program):
    for path in examples():
        script = path.read_text(encoding="utf-8")
        said = subprocess.run([program, "explain"], input=script.encode(), check=False,
                              stdout=subprocess.PIPE).stdout.decode()
        yield path.name, script, said


def main():
    if len(sys.argv) == 4 and sys.argv[1] == "--tried":
        texts = tried(*sys.argv[2:])
    elif len(sys.argv) == 2:
        texts = explained(sys.argv[1])
    else:
        print(__doc__, file=sys.stderr)
        return 2
    checked = wrong = 0
    for name, script, said in texts:
        checker = Checker(name, script)
        checker.text(said)
        checked += checker.checked
        wrong += checker.wrong
    print(f"explained: {checked} facts checked, {wrong} wrong")
    return 1 if wrong or not checked else 0


if __name__ == "__main__":
    sys.exit(main())
