"""One script, told twice: as lines for player.c, which KVM plays, and as calls for `its run`.

Each thing that both sides answer becomes a check: its kind, the answer's number on KVM's side, the call's number on the
other, and what compare.py needs besides. A call may stand as a function of KVM's answers: an acknowledgement is
`claim` of the LPI that KVM gave.
"""
import layout
from commands import encoded, spelled

# What KVM's ABI restores, in its order.
RESTORED = (layout.CBASER, layout.CREADR, layout.CWRITER, layout.BASER0, layout.BASER1, layout.CTLR)
MASK = 0xF8     # what a processor of QEMU keeps of the priority mask 0xFF


class Script:
    def __init__(self, title, shape, image=None, from_kvm=False):
        self.title = title
        self.shape = shape
        self.operations = [f"T {title}", f"M {shape.processors:x}"]
        self.body = ["phase", "thread"]
        self.restored = image.description(from_kvm) if image else ()
        self.checks = []
        self.answers = 0
        self.calls = 0
        self.place = 0
        self.waiting = 0
        if image:
            self.operations += image.pokes()
            self.place = dict(image.registers)[layout.CWRITER] // 32
            self.restart(image.registers, image.redistributors, False)

    # What one side alone is told.

    def operate(self, line, answered=False):
        """A line of KVM's side, and the number of its answer."""
        self.operations.append(line)
        self.answers += answered
        return self.answers - 1

    def call(self, line):
        """A call of the other side, and its number."""
        self.body.append(line)
        self.calls += 1
        return self.calls - 1

    def check(self, kind, answer, call, *more):
        self.checks.append((kind, answer, call, *more))

    def script(self, answers):
        """The text for `its run`, given what KVM answered."""
        body = [line(answers) if callable(line) else line for line in self.body]
        return "\n".join(self.shape.description(self.restored) + body + ["end", ""])

    # Memory.

    def poke(self, address, data):
        self.operate(f"P {address:x} {data.hex()}")
        for i in range(0, len(data), 64):
            self.call(f"poke {address + i:#x} {data[i:i + 64].hex()}")

    def zero(self, address, length):
        self.poke(address, bytes(length))

    # Registers.

    def write(self, offset, value, guest=None, size=None):
        """A register of the translator, by userspace, or by the guest on a processor."""
        size = size or layout.SIZES.get(offset, 8)
        if guest is None:
            self.operate(f"W {offset:x} {value:x}")
        else:
            self.operate(f"w {guest:x} {size} {0x08080000 + offset:x} {value:x}")
        self.call(f"write {offset:#x} {size} {value:#x}")

    def read(self, offset, guest=None, size=None):
        size = size or layout.SIZES.get(offset, 8)
        line = f"G {offset:x}" if guest is None else f"l {guest:x} {size} {0x08080000 + offset:x}"
        self.check("register", self.operate(line, True), self.call(f"read {offset:#x} {size}"), "GITS", offset)

    def redistributor_write(self, v, offset, value, guest=False):
        size = 4 if offset == layout.GICR_CTLR else 8
        if guest:
            self.operate(f"w {v:x} {size} {0x080A0000 + 0x20000 * v + offset:x} {value:x}")
        else:
            for half in range(0, size, 4):
                self.operate(f"r {v:x} {offset + half:x} {value >> 8 * half & 0xFFFFFFFF:x}")
        self.call(f"rwrite {v} {offset:#x} {size} {value:#x}")

    def redistributor_read(self, v, offset):
        size = 4 if offset == layout.GICR_CTLR else 8
        answer = self.operate(f"l {v:x} {size} {0x080A0000 + 0x20000 * v + offset:x}", True)
        self.check("register", answer, self.call(f"rread {v} {offset:#x} {size}"), "GICR", offset)

    # Commands, signals, acknowledgements.

    def queue(self, name, *values):
        """A command in the queue, which runs at the next `kick`."""
        address = layout.QUEUE + 32 * self.place
        self.operate(f"P {address:x} {encoded(name, *values).hex()}")
        self.call(f"command {address:#x} {spelled(name, *values)}")
        self.advance()

    def queue_bytes(self, data):
        self.poke(layout.QUEUE + 32 * self.place, data)
        self.advance()

    def advance(self):
        self.place = (self.place + 1) % self.shape.places
        self.waiting += 1

    def kick(self, guest=None):
        """The queue's end is told, and all that waits in it runs."""
        self.write(layout.CWRITER, 32 * self.place, guest)
        self.steps()

    def steps(self):
        for _ in range(self.waiting):
            self.check("step", None, self.call("step"))
        self.waiting = 0

    def command(self, name, *values):
        self.queue(name, *values)
        self.kick()

    def signal(self, device, event, kind="signal"):
        """The numbers of the answer and of the call."""
        answer, call = self.operate(f"S {device:x} {event:x}", True), self.call(f"signal {device} {event}")
        self.check(kind, answer, call)
        return answer, call

    def acknowledge(self, v):
        answer = self.operate(f"A {v:x}", True)
        best = self.call(f"best {v} {MASK:#x}")
        claim = self.call(lambda answers: f"claim {v} {answers[answer].number}")
        self.check("acknowledge", answer, best, claim)

    # What is saved.

    def save(self, tables):
        """Pending tables, and with `tables` the others too, which `its` writes in any case."""
        call = self.call("save")
        self.check("save", self.operate("Q", True), call)
        if tables:
            self.check("save", self.operate("V", True), call)

    def see_pending(self, v, forget):
        """The pending bits of the LPIs in use; `forget` zeros them in memory on both sides."""
        low, high = self.shape.lpis[0], self.shape.lpis[-1]
        start, length = layout.pending_table(v) + low // 8, (high - low) // 8 + 1
        answer = self.operate(f"B {v:x} {low:x} {high:x}", True)
        self.check("pending", answer, self.call(f"peek {start:#x} {length}"), v, low)
        if forget:
            self.zero(start, length)

    def see_words(self, stretches):
        """What stands in stretches of tables: the numbers of KVM's dumps, and of the peeks with their addresses."""
        answers = [self.operate(f"D {start:x} {length:x}", True) for start, length in stretches]
        return answers, self.peeks(stretches)

    def see_machine(self):
        """All that a migration of KVM takes along: the numbers of the answers (image.from_kvm)."""
        dump = self.operate(f"D {layout.RAM:x} {layout.RAM_LENGTH:x}", True)
        own = [(offset, self.operate(f"G {offset:x}", True)) for offset in RESTORED]
        return dump, own, [[self.operate(f"g {v:x} {offset:x}", True) for offset in (0x70, 0x74, 0x78, 0x7C, 0)]
                           for v in range(self.shape.processors)]

    def see_here(self, stretches):
        """The same of the other side: the numbers of the calls (image.from_report)."""
        own = [(offset, self.call(f"read {offset:#x} {layout.SIZES.get(offset, 8)}")) for offset in RESTORED]
        theirs = [[self.call(f"rread {v} {offset:#x} {size}") for offset, size in ((0x70, 8), (0x78, 8), (0, 4))]
                  for v in range(self.shape.processors)]
        return self.peeks(stretches), own, theirs

    def peeks(self, stretches):
        return [(at, self.call(f"peek {at:#x} {min(64, start + length - at)}"))
                for start, length in stretches for at in range(start, start + length, 64)]

    def see_pending_alone(self):
        """What KVM has pending, whatever older bits its memory has: the numbers of the answers, by processor."""
        low, high = self.shape.lpis[0], self.shape.lpis[-1]
        for v in range(self.shape.processors):
            self.operate(f"Z {layout.pending_table(v) + low // 8:x} {(high - low) // 8 + 1:x}")
        self.operate("Q", True)
        return [self.operate(f"B {v:x} {low:x} {high:x}", True) for v in range(self.shape.processors)]

    def migrate(self):
        """Both go on from what they saved; everything was saved before, so KVM's side saves nothing here."""
        self.body += ["migrate", "phase", "thread"]

    def restart(self, registers, redistributors, keep=True):
        """KVM's side goes on in a new machine with the old memory, by the order that its ABI wants. KVM has one PROPBASER,
        so one that was never written isn't written there either: it would stand in place of the others."""
        if keep:
            self.operate(f"K {self.shape.processors:x}")
        for v, values in enumerate(redistributors):
            for offset, value in zip((layout.PROPBASER, layout.PENDBASER, layout.GICR_CTLR), values):
                if offset == layout.PROPBASER and value & ~layout.ATTRIBUTES == 0:
                    continue
                for half in range(0, 4 if offset == layout.GICR_CTLR else 8, 4):
                    self.operate(f"r {v:x} {offset + half:x} {value >> 8 * half & 0xFFFFFFFF:x}")
        for offset, value in registers[:-1]:
            self.operate(f"W {offset:x} {value:x}")
        self.check("restored", self.operate("X", True), None)
        for offset, value in registers[-1:]:
            self.operate(f"W {offset:x} {value:x}")
