"""More cases of differences, as in cases.py: where LPIs are off, tables that weren't emptied, faults of one kernel."""
import layout
from cases import case
from image import Image
from layout import Shape
from script import Script
from small import Small


@case
def attributes():
    """Bases written without memory attributes: KVM reads them as read-allocate write-back"""
    s = Small("attributes", on=3)
    s.redistributor_write(3, layout.PROPBASER, layout.CONFIG | 15)
    s.redistributor_write(3, layout.PENDBASER, layout.pending_table(3))
    s.redistributor_read(3, layout.PROPBASER)
    s.redistributor_read(3, layout.PENDBASER)
    s.write(layout.CTLR, 0)
    bases = (layout.CBASER, layout.QUEUE), (layout.BASER0, layout.DEVICES), (layout.BASER1, layout.COLLECTIONS)
    for offset, value in bases:
        s.write(offset, layout.VALID | value)
        s.read(offset)
    return s


@case
def cached_off():
    """A signal that KVM's cache has is delivered where LPIs are off, once MAPC moved the collection there"""
    s = Small("cached_off", on=3)
    s.event()
    s.signal(16, 3)
    s.acknowledge(1)
    s.command("mapc", 1, 3)
    s.signal(16, 3)
    s.acknowledge(3)
    return s


@case
def no_pending_table():
    """An event of a processor without a pending table: KVM refuses to map it; its save of pending tables fails"""
    s = Small("no_pending_table", on=3)
    s.redistributor_write(3, layout.PENDBASER, 0)
    s.event(3, 8200, 3)
    s.event(4, 8201, 1)
    s.command("movi", 16, 4, 3)
    s.see_tables()
    return s


@case
def lingering():
    """CLEAR, DISCARD, and the LPI mapped anew: KVM before 7.3 sends to the old processor until that one was inside"""
    s = Small("lingering")
    s.event()
    s.signal(16, 3)
    s.command("clear", 16, 3)
    s.command("discard", 16, 3)
    s.event(3, 8200, 2)
    s.signal(16, 3)
    s.see()
    return s


@case
def lingering_off():
    """CLEAR, MOVI, a signal, and LPIs off at the old processor: KVM loses what is pending at the new one"""
    s = Small("lingering_off")
    s.event()
    s.signal(16, 3)
    s.command("clear", 16, 3)
    s.command("movi", 16, 3, 2)
    s.signal(16, 3)
    s.redistributor_write(1, layout.GICR_CTLR, 0)
    s.save(False)
    s.see_pending(2, True)
    return s


@case
def stale_devices():
    """BASER made not valid and valid again: KVM leaves what an earlier save wrote, and restores it"""
    s = Small("stale_devices")
    s.event()
    s.see_tables()
    s.write(layout.CTLR, 0)
    s.write(layout.BASER0, 0)
    s.write(layout.BASER0, s.shape.baser0)
    s.write(layout.CTLR, 1)
    s.signal(16, 3)
    s.see_tables()
    s.migrate_both()
    s.signal(16, 3)
    return s


@case
def stale_events():
    """MAPD again with the same table, not emptied: KVM restores an event that an earlier save wrote"""
    s = Small("stale_events")
    s.event(0, 8200)
    s.see_tables()
    s.map_device(16, layout.ITTS)
    s.event(3, 8201)
    s.see_tables()
    s.migrate_both()
    s.signal(16, 0)
    s.signal(16, 3)
    return s


@case
def unmapped_at_once():
    """DISCARD and UNMAPD write zeros to the tables in KVM, without a save"""
    s = Small("unmapped_at_once")
    s.event()
    s.map_device(17)
    s.see_tables((16, 17))
    s.command("discard", 16, 3)
    s.command("unmapd", 17)
    s.check("words", *s.see_words([(s.shape.device_entry(16), 16), (layout.ITTS, 64)]))
    return s


@case
def other_base():
    """BASER written with another valid value: KVM 6.1 keeps what is mapped"""
    s = Small("other_base")
    s.event()
    s.write(layout.CTLR, 0)
    s.write(layout.BASER0, s.shape.baser0 + 1)
    s.write(layout.CTLR, 1)
    s.signal(16, 3)
    return s


@case
def moved_off():
    """MOVI to a processor whose LPIs are off: KVM moves the event, here it is refused"""
    s = Small("moved_off", on=3)
    s.event()
    s.command("movi", 16, 3, 3)
    s.signal(16, 3)
    return s


@case
def mapc_off():
    """MAPC to a processor whose LPIs are off: KVM moves what is pending, here it stays"""
    s = Small("mapc_off", on=3)
    s.event()
    s.signal(16, 3)
    s.command("mapc", 1, 3)
    s.see()
    return s


@case
def itt_outside():
    """An interrupt translation table outside memory: KVM refuses its events; here a save is refused"""
    s = Small("itt_outside")
    s.map_device(17, 0x90000000)
    s.event(device=17)
    s.signal(17, 3)
    s.save(True)
    return s


@case
def one_configuration():
    """GICR_INVLPIR: KVM has one configuration of an LPI, here each processor its own"""
    s = Small("one_configuration")
    s.event()
    s.configure(0xA0, read=False)
    s.redistributor_write(3, layout.INVLPIR, 8200, True)
    s.signal(16, 3)
    s.acknowledge(1)
    return s


@case
def one_propbaser():
    """GICR_PROPBASER written at one processor: KVM has one for all, and reads configurations there"""
    s = Small("one_propbaser", on=3)
    s.redistributor_write(3, layout.PROPBASER, 0)
    s.redistributor_read(0, layout.PROPBASER)
    s.event()
    s.signal(16, 3)
    s.see_tables()
    return s


@case
def stale_pending():
    """A pending bit that an earlier save wrote at the old processor: KVM leaves it there, and doesn't count it"""
    s = Small("stale_pending")
    s.event()
    s.signal(16, 3)
    s.see(False)
    s.command("clear", 16, 3)
    s.command("movi", 16, 3, 2)
    s.see(False)
    s.migrate_both()
    s.see(False)
    return s



def standing(title, events, last=None):
    """A machine that both restore from the same tables: device 16 with these events, and collection c at processor c.

    `last` is the PENDBASER of processor 3, and whether its LPIs are on.
    """
    shape = Shape()
    tables = {
        layout.COLLECTIONS: [layout.VALID | icid << 16 | icid for icid in (1, 2, 3)],
        shape.device_entry(16): [layout.VALID | layout.ITTS >> 3 | 2],
        layout.ITTS: events,
        layout.CONFIG: [0xA1A1A1A1A1A1A1A1] * 12,
    }
    words = {start + 8 * i: word for start, table in tables.items() for i, word in enumerate(table)}
    registers = [(layout.CBASER, shape.cbaser), (layout.CREADR, 0), (layout.CWRITER, 0), (layout.BASER0, shape.baser0),
                 (layout.BASER1, shape.baser1), (layout.CTLR, 1)]
    redistributors = [(shape.propbaser, shape.pendbaser(v), 1) for v in range(3)]
    redistributors.append((shape.propbaser, *((shape.pendbaser(3), 1) if last is None else last)))
    return Script(title, shape, Image(shape, words, registers, redistributors))


@case
def shared_restored():
    """Tables with two events of one LPI: KVM 7.3 restores the first alone, and saves no other"""
    s = standing("shared_restored", [1 << 48 | 8200 << 16 | 1, 2 << 48 | 8201 << 16 | 2, 0, 8200 << 16 | 2])
    for event in (0, 1, 3):
        s.signal(16, event)
    s.save(True)
    for v in range(4):
        s.see_pending(v, False)
    s.check("words", *s.see_words([(layout.ITTS, 64)]))
    return s


@case
def no_table_restored():
    """Tables with an event of a processor that has no pending table: KVM's restore answers EFAULT"""
    s = standing("no_table_restored", [1 << 48 | 8200 << 16 | 1, 8201 << 16 | 3], (0, 0))
    s.signal(16, 0)
    s.signal(16, 1)
    s.save(False)
    return s
