"""The smallest scripts that show where KVM and `its` differ, one function each; the first line says what is shown.

more_cases.py has those that matter less, or to fewer guests.
"""
import layout
from small import Small

CASES = {}


def case(make):
    CASES[make.__name__] = make
    return make


@case
def discard_pending():
    """DISCARD of a pending, enabled LPI: KVM hands it to the guest still"""
    s = Small("discard_pending")
    s.event()
    s.signal(16, 3)
    s.command("discard", 16, 3)
    s.see()
    s.acknowledge(1)
    return s


@case
def discard_saved():
    """the same over a save: KVM writes the bit, and drops it at the restore"""
    s = Small("discard_saved")
    s.event()
    s.signal(16, 3)
    s.command("discard", 16, 3)
    s.see(False)
    s.migrate_both()
    s.see(False)
    s.acknowledge(1)
    return s


@case
def unmapd_disabled():
    """UNMAPD where an LPI is pending and disabled: KVM loses it"""
    s = Small("unmapd_disabled")
    s.event()
    s.configure(0xA0)
    s.signal(16, 3)
    s.see()
    s.command("unmapd", 16)
    s.see()
    return s


@case
def unmapd_saved():
    """UNMAPD where an LPI is pending and enabled, and a migration: here it stays pending"""
    s = Small("unmapd_saved")
    s.event()
    s.signal(16, 3)
    s.command("unmapd", 16)
    s.see(False)
    s.migrate_both()
    s.see(False)
    s.acknowledge(1)
    return s


@case
def unmapc_again():
    """MAPC V=0, then the collection again: KVM's events don't come back; a save between writes none"""
    s = Small("unmapc_again")
    s.event()
    s.signal(16, 3)
    s.acknowledge(1)
    s.command("unmapc", 1)
    s.see_tables()
    s.command("mapc", 1, 1)
    s.signal(16, 3)
    s.see_tables()
    return s


@case
def unmapped_collection():
    """MAPTI before MAPC: KVM saves an entry with target 0xffffffff"""
    s = Small("unmapped_collection")
    s.event(icid=5)
    s.see_tables()
    s.migrate_both()
    s.command("mapc", 5, 2)
    s.signal(16, 3)
    s.see()
    return s


@case
def movall():
    """MOVALL: KVM moves targets too, so later signals go to the new processor until MAPC or MOVI"""
    s = Small("movall")
    s.event()
    s.event(4, 8201, 2)
    s.signal(16, 3)
    s.signal(16, 4)
    s.command("movall", 1, 3)
    s.see()
    s.signal(16, 3)
    s.see()
    return s


@case
def movall_third():
    """MOVALL: KVM 6.12.107 moves LPIs of third processors too"""
    s = Small("movall_third")
    s.event(3, 8200, 1)
    s.event(4, 8201, 2)
    s.signal(16, 4)
    s.command("movall", 1, 3)
    s.see()
    return s


@case
def movall_saved():
    """MOVALL and a migration: KVM's tables have the old processor, so what is pending at the new one is lost"""
    s = Small("movall_saved")
    s.event()
    s.signal(16, 3)
    s.command("movall", 1, 3)
    s.see(False)
    s.migrate_both()
    for v in range(4):
        s.zero(layout.pending_table(v) + 1024, 12)
    s.see()
    return s


@case
def collection_order():
    """The order of entries in the collection table: KVM's as they came, here by ICID"""
    s = Small("collection_order")
    s.command("mapc", 0, 0)
    s.see_tables()
    return s


@case
def clear_unmapped():
    """CLEAR where the collection isn't mapped clears in KVM, and DISCARD is refused there"""
    s = Small("clear_unmapped")
    s.event()
    s.signal(16, 3)
    s.command("unmapc", 1)
    s.command("clear", 16, 3)
    s.see()
    s.command("discard", 16, 3)
    s.event(3, 8201, 2)
    s.signal(16, 3)
    s.see()
    return s


@case
def shared_lpi():
    """Two events of one LPI: KVM has one processor for it; 7.3 refuses the second event"""
    s = Small("shared_lpi")
    s.event(3, 8200, 1)
    s.event(4, 8200, 2)
    s.signal(16, 3)
    s.signal(16, 4)
    s.see()
    return s


@case
def invall_other():
    """INVALL reads in KVM each LPI of the collection's processor, here those of the collection's events"""
    s = Small("invall_other")
    s.command("mapc", 5, 1)
    s.event(3, 8200, 1)
    s.signal(16, 3)
    s.configure(0xA0, read=False)
    s.command("invall", 5)
    s.acknowledge(1)
    return s


@case
def mapti_takes_pending():
    """MAPTI takes a pending bit out of memory in KVM"""
    s = Small("mapti_takes_pending")
    s.poke(layout.pending_table(1) + 1025, b"\x01")
    s.event()
    s.see(False)
    s.acknowledge(1)
    return s


@case
def registers():
    """Registers that read otherwise"""
    s = Small("registers")
    for offset in (layout.CTLR, layout.IIDR, layout.TYPER, layout.CBASER, layout.BASER0, layout.BASER1, layout.PIDR2):
        s.read(offset)
    for offset in (0xFFD0, 0xFFE0, 0xFFF0, 0xFFF4, 0xFFF8, 0xFFFC):
        s.read(offset, 0, 4)
    for offset in (layout.GICR_CTLR, layout.PROPBASER, layout.PENDBASER):
        s.redistributor_read(0, offset)
    return s
