"""What a random guest does next: each kind with its weight, and commands that are wrong."""
import layout

REGISTERS = [layout.CTLR, layout.IIDR, layout.TYPER, layout.CBASER, layout.CWRITER, layout.CREADR, layout.BASER0,
             layout.BASER1, layout.PIDR2]


def signal(guest):
    guest.settle()
    way = guest.random.random()
    events = guest.events(lambda d, e, intid, icid: way > 0.6 or guest.reaches(icid))
    if events and way < 0.85:
        guest.script.signal(*guest.random.choice(events))
    else:
        guest.script.signal(guest.random.choice([*guest.identifiers, guest.wide, 8192, 70000, 0xFFFFFFFF]),
                            guest.random.choice([0, 1, 5, 40, 8200, 65536, 0xFFFFFFFF]))


def device(guest):
    d = guest.random.choice([*guest.identifiers, guest.wide])
    if guest.chance(0.25):
        guest.unmap_device(d)
    else:
        guest.map_device(d)


def collection(guest):
    icid = guest.random.choice(guest.icids)
    if guest.chance(0.2):
        guest.unmap_collection(icid)
    else:
        guest.map_collection(icid, guest.random.randrange(guest.shape.processors))


def event(guest):
    if guest.devices:
        guest.map_some_event()


def movi(guest):
    events = guest.events()
    if events:
        guest.move_event(*guest.random.choice(events), guest.random.choice(guest.icids))


def movall(guest):
    source, target = (guest.random.randrange(guest.shape.processors) for _ in range(2))
    guest.move_all(source, target)


def discard(guest):
    events = guest.events()
    if events:
        guest.discard(*guest.random.choice(events))


def plain(guest):
    """INT, CLEAR, INV, INVALL and SYNC change no map."""
    events = guest.events()
    kind = guest.random.choice(["int", "int", "clear", "inv", "invall", "sync"])
    if kind == "sync":
        guest.run("sync", guest.random.randrange(guest.shape.processors))
    elif kind == "invall":
        guest.run("invall", guest.random.choice([*guest.icids, 4000]))
    elif events:
        guest.run(kind, *guest.random.choice(events))


def configuration(guest):
    guest.change_configuration()


def wrong(guest):
    """A command that both refuse, for one of many reasons."""
    pick, shape = guest.random.choice, guest.shape
    no_place = [70000, 0xFFFFFFFF] + ([2 * 8192 + 1] if shape.levels else [8192 * shape.device_pages])
    stranger = pick([d for d in [9, 21, *no_place] if d not in guest.devices])
    out_of_range = pick([100, 8191, 1 << shape.lpi_bits, 0xFFFFFFFF])
    known = pick(list(guest.devices) or [9])
    outside = pick([1 << (guest.devices[known].bits if known in guest.devices else 1), 0xFFFFFFFF])
    icid = pick(guest.icids)
    choices = [
        ("mapd", stranger if stranger in no_place else pick(no_place), 3, layout.ITTS),
        ("mapd", stranger if stranger not in guest.devices else 9, pick([17, 20, 32]), layout.ITTS),
        ("unmapd", stranger), ("mapc", icid, pick([shape.processors, 17, 5000])),
        ("mapti", stranger, 0, shape.lpis[0], icid), ("mapti", known, outside, shape.lpis[0], icid),
        ("movi", stranger, 0, icid), ("movi", known, outside, icid), ("int", stranger, 1), ("int", known, outside),
        ("clear", known, outside), ("discard", known, outside), ("discard", stranger, 0), ("inv", known, outside),
        ("invall", 4000), ("movall", 0, shape.processors), ("movall", 5000, 0),
    ]
    free = [e for e in range(1 << min(guest.devices[known].bits, 3)) if e not in guest.devices[known].events] \
        if known in guest.devices else []
    if free:
        choices += [("mapti", known, pick(free), out_of_range, icid), ("mapi", known, pick(free), icid),
                    ("movi", known, pick(free), icid), ("discard", known, pick(free))]
    if not shape.collection_fits(65535):
        choices.append(("mapc", 65535, 0))
        if free:
            choices.append(("mapti", known, free[0], shape.lpis[0], 65535))
    guest.run(*pick(choices))


def unknown(guest):
    """An opcode that no command has."""
    data = bytes([guest.random.choice([0, 2, 6, 7, 16, 17, 0x21, 0xFF])]) + guest.random.randbytes(31)
    guest.script.queue_bytes(data)
    guest.kick()


def registers(guest):
    guest.settle()
    where = guest.some_guest()
    way = guest.random.random()
    if way < 0.5:
        guest.script.read(guest.random.choice(REGISTERS), where)
    elif way < 0.7:
        v = guest.random.randrange(guest.shape.processors)
        guest.script.read(guest.random.choice(REGISTERS[2:8]) + guest.random.choice([0, 4]), v, 4)
    elif way < 0.85:
        v = guest.random.randrange(guest.shape.processors)
        guest.script.redistributor_read(v, guest.random.choice([layout.GICR_CTLR, layout.PROPBASER, layout.PENDBASER]))
    else:
        bad_write(guest)


def bad_write(guest):
    """A write that has no effect: a register that can't be written now, or an offset past the queue."""
    v = guest.random.randrange(guest.shape.processors)
    past = 4096 * guest.shape.queue_pages + 32
    choices = [(layout.CWRITER, past), (layout.CREADR, 64), (layout.TYPER, 5), (0x40, 7)]
    if guest.enabled:
        choices += [(layout.CBASER, 0), (layout.BASER0, 0), (layout.BASER1, 0)]
    offset, value = guest.random.choice(choices)
    guest.script.write(offset, value, v, 8)
    for one in (layout.CWRITER, layout.CREADR, layout.CBASER, layout.BASER0):
        guest.script.read(one)


def turned(guest):
    guest.turn(guest.random.randrange(guest.shape.processors))


def paused(guest):
    """The translator is off for a while: signals are dropped, and commands wait."""
    guest.settle()
    guest.enable(False)
    for _ in range(guest.random.randrange(1, 4)):
        signal_now(guest)
    guest.enable(True)


def signal_now(guest):
    events = guest.events()
    if events:
        guest.script.signal(*guest.random.choice(events))


def rebased(guest):
    guest.rebase()


def acknowledged(guest):
    guest.settle()
    for _ in range(guest.random.randrange(1, 4)):
        guest.script.acknowledge(guest.random.randrange(guest.shape.processors))


def migrated(guest):
    guest.migrate()


def looked(guest):
    guest.look()
    guest.forget_pending(lambda v: not guest.on[v])


KINDS = {
    signal: 55, device: 2.5, collection: 3.5, event: 14, movi: 6, movall: 0.7, discard: 2, plain: 8, configuration: 3,
    wrong: 6, unknown: 0.6, registers: 2.5, turned: 0.8, paused: 0.4, rebased: 0.15, acknowledged: 3, looked: 2.5,
    migrated: 0.3,
}


def play(guest, count):
    """Random steps, and at the end a look."""
    kinds, weights = list(KINDS), list(KINDS.values())
    for _ in range(count):
        guest.random.choices(kinds, weights)[0](guest)
    looked(guest)
