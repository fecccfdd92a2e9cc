"""Compares what KVM answered to a script with a report of `its run`, check by check."""
import collections

import layout
import tables

QUIESCENT = "GITS_CTLR.Quiescent: here 0 while enabled"
IR = "GICR_CTLR.IR: KVM reads 1"
ONE_PROPBASER = "GICR_PROPBASER: KVM has one for all processors"
DESIGNER = "GITS_PIDR2: the designer's bits"
SECOND = "a second event of an LPI: KVM 7.3 passes over it at a restore, and its signals are dropped"
IDENTIFICATION = "ID registers: here zero"


class Tally:
    """Counts by kind, named differences, and other ones with where they are."""

    def __init__(self):
        self.counts = collections.Counter()
        self.named = collections.Counter()
        self.others = []

    def agree(self, kind):
        self.counts[kind] += 1

    def differ(self, script, what):
        self.others.append(f"{script.title}: {what}")

    def add(self, other):
        self.counts += other.counts
        self.named += other.named
        self.others += other.others


class Report:
    """A report of `its run`: the calls with their replies, and what is pending at each leg's end."""

    def __init__(self, text):
        self.calls, self.replies, self.pending, self.end = [], [], [], ""
        for line in text.splitlines():
            if line.startswith("vcpu "):
                self.pending.append(line)
            elif " -> " in line:
                call, reply = line.split(" ", 2)[2].split(" -> ")
                self.calls.append(call)
                self.replies.append(reply)
            else:
                self.end = line

    def bytes(self, call):
        return bytes.fromhex(self.replies[call].split()[1])

    def words(self, peeks):
        """The words that aren't zero in what was peeked."""
        found = {}
        for address, call in peeks:
            data = self.bytes(call)
            for i in range(0, len(data), 8):
                word = int.from_bytes(data[i:i + 8], "little")
                if word:
                    found[address + i] = word
        return found


def named_register(file, offset, theirs, ours):
    """The name of the difference of two values of a register, if it is a known one."""
    if file == "GITS" and offset == layout.CTLR and (theirs ^ ours) == 1 << 31 and ours & 1:
        return QUIESCENT
    if file == "GITS" and offset == layout.PIDR2 and (theirs ^ ours) & ~0xF == 0:
        return DESIGNER
    if file == "GITS" and 0xFFD0 <= offset <= 0xFFFC and offset != layout.PIDR2 and ours == 0:
        return IDENTIFICATION
    if file == "GICR" and offset == layout.PROPBASER and ours == layout.ATTRIBUTES:
        return ONE_PROPBASER
    if file == "GICR" and offset == layout.GICR_CTLR and theirs ^ ours == 4 and theirs & 4:
        return IR
    return None


class Comparison:
    """One script's checks. Each method is a kind, and takes the answer, the reply, and what else the check has."""

    def __init__(self, script, answers, report):
        self.script = script
        self.answers = answers
        self.report = report
        self.tally = Tally()

    def run(self):
        if len(self.answers) < self.script.answers:
            self.tally.differ(self.script, f"KVM answered {len(self.answers)} of {self.script.answers} times")
            return self.tally
        if self.report.end != "done":
            self.tally.differ(self.script, f"the report ends with {self.report.end!r}")
            return self.tally
        for kind, *check in self.script.checks:
            getattr(self, kind)(*check)
        return self.tally

    def told(self, answer, call, agrees, kind):
        if agrees:
            self.tally.agree(kind)
            return
        theirs = self.answers[answer]
        told = theirs.numbers or (theirs.error and f"error {theirs.error}") or theirs.number
        self.tally.differ(self.script, f"answer {answer} of KVM {told}, "
                                       f"here call {call} {self.report.calls[call]} -> {self.report.replies[call]}")

    def step(self, _, call):
        self.tally.agree("commands " + self.report.replies[call].split()[0])

    def signal(self, answer, call):
        number, reply = self.answers[answer].number, self.report.replies[call]
        if reply.startswith("delivered"):
            agrees = number == 1
        else:
            agrees = number == (-16 if reply in ("dropped disabled", "dropped lpis-off") else 0)
        self.told(answer, call, agrees, "signals " + reply.split()[0])

    def signal_of_second(self, answer, call):
        """A signal of an event whose LPI another event has too."""
        reply = self.report.replies[call]
        if self.answers[answer].number == 0 and reply.startswith(("delivered", "dropped disabled", "dropped lpis-off")):
            self.tally.named[SECOND] += 1
        else:
            self.signal(answer, call)

    def register(self, answer, call, file, offset):
        theirs, ours = self.answers[answer].number, int(self.report.replies[call].split()[1], 0)
        name = theirs != ours and named_register(file, offset, theirs, ours)
        if name:
            self.tally.named[name] += 1
        self.told(answer, call, name or theirs == ours, "registers read")

    def acknowledge(self, answer, best, claim):
        number = self.answers[answer].number
        first, got = self.report.replies[best].split(), self.report.replies[claim].split()
        if number == 1023:
            agrees = first == ["none"]
        else:
            agrees = got[0] == "lpi" and first[0] == "lpi" and int(first[2], 0) >> 3 == int(got[2], 0) >> 3
        self.told(answer, best if first == ["none"] or number == 1023 else claim, agrees,
                  "acknowledgements of none" if number == 1023 else "acknowledgements")

    def save(self, answer, call):
        self.told(answer, call, (self.answers[answer].number == 0) == (self.report.replies[call] == "saved"), "saves")

    def restored(self, answer, _):
        if self.answers[answer].number == 0:
            self.tally.agree("restores")
        else:
            self.tally.differ(self.script, f"KVM's restore answers {self.answers[answer].number}")

    def pending(self, answer, call, v, low):
        data = self.report.bytes(call)
        ours = [low + i for i in range(8 * len(data)) if data[i // 8] >> i % 8 & 1]
        self.told(answer, call, self.answers[answer].numbers == ours, "pending tables")
        self.tally.counts["pending LPIs seen"] += len(ours)

    def words(self, answers, peeks):
        """Tables of devices and of events: each word the same."""
        theirs = {at: word for answer in answers for at, word in self.answers[answer].words.items()}
        ours = self.report.words(peeks)
        for address in sorted(theirs.keys() | ours.keys()):
            if theirs.get(address, 0) == ours.get(address, 0):
                self.tally.agree("words of tables")
            else:
                self.tally.differ(self.script, f"word {address:#x} of KVM {theirs.get(address, 0):#x}, "
                                               f"here {ours.get(address, 0):#x} ({self.report.calls[peeks[0][1]]})")

    def collections(self, answers, peeks):
        theirs, ours = tables.collections(self.answers[answers[0]].words), tables.collections(self.report.words(peeks))
        names = tables.collection_differences(theirs, ours)
        if names is None:
            self.tally.differ(self.script, f"collections of KVM {theirs}, here {ours}")
        else:
            self.tally.agree("collection tables")
            self.tally.named.update(names)
