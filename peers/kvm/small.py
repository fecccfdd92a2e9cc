"""A small machine for scripts that show one thing."""
import layout
from layout import Shape
from script import Script


class Small(Script):
    """A machine with four processors whose LPIs are on, device 16 with 8 events, and collection c at processor c."""

    def __init__(self, title, on=4):
        super().__init__(title, Shape())
        self.tables = 0
        self.poke(layout.CONFIG, bytes([0xA1]) * 96)
        for v in range(4):
            self.redistributor_write(v, layout.PROPBASER, self.shape.propbaser)
            self.redistributor_write(v, layout.PENDBASER, self.shape.pendbaser(v))
            if v < on:
                self.redistributor_write(v, layout.GICR_CTLR, 1)
        self.write(layout.CBASER, self.shape.cbaser)
        self.write(layout.BASER0, self.shape.baser0)
        self.write(layout.BASER1, self.shape.baser1)
        self.write(layout.CTLR, 1)
        self.map_device(16)
        for icid in (1, 2, 3):
            self.command("mapc", icid, icid)

    def map_device(self, device, itt=None):
        if itt is None:
            itt = layout.ITTS + layout.ITT_LENGTH * self.tables
            self.tables += 1
        self.command("mapd", device, 3, itt)
        return itt

    def event(self, event=3, intid=8200, icid=1, device=16):
        self.command("mapti", device, event, intid, icid)

    def see(self, forget=True):
        """What is pending at each processor."""
        self.save(False)
        for v in range(4):
            self.see_pending(v, forget)

    def see_tables(self, devices=(16,)):
        """What a save writes: entries of devices, their events, and collections."""
        self.save(True)
        self.check("words", *self.see_words([(self.shape.device_entry(d), 8) for d in devices] +
                                            [(layout.ITTS + layout.ITT_LENGTH * i, 64) for i in range(self.tables)]))
        self.check("collections", *self.see_words([(layout.COLLECTIONS, 64)]))

    def migrate_both(self):
        """Each side is saved, and goes on from that."""
        self.save(True)
        self.migrate()
        place = 32 * self.place
        shape = self.shape
        own = [(layout.CBASER, shape.cbaser), (layout.CREADR, place), (layout.CWRITER, place),
               (layout.BASER0, shape.baser0), (layout.BASER1, shape.baser1), (layout.CTLR, 1)]
        self.restart(own, [(shape.propbaser, shape.pendbaser(v), 1) for v in range(4)])

    def configure(self, byte, intid=8200, read=True, event=3):
        self.poke(layout.CONFIG + intid - 8192, bytes([byte]))
        if read:
            self.command("inv", 16, event)
