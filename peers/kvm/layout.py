"""Where everything stands in the memory of the machine, and what sizes a script has."""

RAM, RAM_LENGTH = 0x80000000, 0x240000
DEVICES, COLLECTIONS, QUEUE = 0x80000000, 0x80040000, 0x800C0000
CONFIG, PENDING, PAGES = 0x800D0000, 0x800E0000, 0x80160000
ITTS, ITT_LENGTH, ITT_COUNT = 0x80190000, 0x100, 512
WIDE_ITTS, WIDE_LENGTH, WIDE_COUNT = 0x801C0000, 0x20000, 4

CTLR, IIDR, TYPER, CBASER, CWRITER, CREADR, BASER0, BASER1, PIDR2 = 0, 4, 8, 0x80, 0x88, 0x90, 0x100, 0x108, 0xFFE8
GICR_CTLR, PROPBASER, PENDBASER, INVLPIR, INVALLR = 0, 0x70, 0x78, 0xA0, 0xB0
SIZES = {CTLR: 4, IIDR: 4, PIDR2: 4}
VALID, INDIRECT = 1 << 63, 1 << 62
ATTRIBUTES = 0x780      # inner shareable, write-back: what a Linux writes to PROPBASER and PENDBASER
KEPT = 7 << 59 | ATTRIBUTES & 0x400     # the same as a Linux writes it to CBASER and BASER
UNMAPPED = 0xFFFFFFFF   # the target of a collection that was named and never mapped, as KVM saves it
PER_PAGE = 8192         # entries of 8 bytes in a page of 64 KiB


def pending_table(processor):
    return PENDING + 0x10000 * processor


class Shape:
    """The sizes of one script's machine."""

    def __init__(self, processors=4, levels=False, device_pages=1, collection_pages=1, queue_pages=1, lpi_bits=16):
        self.processors = processors
        self.levels = levels
        self.device_pages = device_pages
        self.collection_pages = collection_pages
        self.queue_pages = queue_pages
        self.lpi_bits = lpi_bits
        self.lpis = range(8192, 8192 + 96)

    @property
    def places(self):
        """Commands that the queue takes."""
        return 128 * self.queue_pages

    @property
    def cbaser(self):
        return VALID | KEPT | QUEUE | self.queue_pages - 1

    @property
    def baser0(self):
        return VALID | (INDIRECT if self.levels else 0) | KEPT | 0x0107000000000200 | DEVICES | self.device_pages - 1

    @property
    def baser1(self):
        return VALID | KEPT | 0x0407000000000200 | COLLECTIONS | self.collection_pages - 1

    @property
    def propbaser(self):
        return CONFIG | ATTRIBUTES | self.lpi_bits - 1

    def pendbaser(self, processor, zero=False):
        return pending_table(processor) | ATTRIBUTES | (1 << 62 if zero else 0)

    def level1(self):
        """The pages that the first level of the device table names, by their index there; the others have none."""
        return {k: PAGES + 0x10000 * i for i, k in enumerate((0, 1, 7))} if self.levels else {}

    def device_entry(self, device):
        """The address of a device's entry, or None where it has no place."""
        if device >= 65536:
            return None
        if self.levels:
            page = self.level1().get(device // PER_PAGE)
            return page and page + 8 * (device % PER_PAGE)
        return DEVICES + 8 * device if device < PER_PAGE * self.device_pages else None

    def collection_fits(self, icid):
        return icid < min(PER_PAGE * self.collection_pages, 65536)

    def description(self, restored=()):
        """The lines of `its run` that describe the machine."""
        ids = [] if self.lpi_bits == 16 else [f"ids 16 {self.lpi_bits}"]
        return [f"vcpus {self.processors}", "shards 16", f"window {RAM:#x} {RAM_LENGTH:#x}", "gicr", "linux",
                "profile 2", *ids, *restored]
