"""Entries of saved tables, and how two saves of one state may differ."""
import layout

UNNAMED = "KVM keeps the entry of a collection that isn't mapped and that no event names any more"


def device_fields(word):
    """The interrupt translation table and the EventID bits of a device's entry."""
    return (word >> 5 & (1 << 44) - 1) << 8, (word & 31) + 1


def collection_fields(word):
    """The ICID and the target of a collection's entry."""
    return word & 0xFFFF, word >> 16 & 0xFFFFFFFF


def event_fields(word):
    """The INTID and the ICID of an event's entry."""
    return word >> 16 & 0xFFFFFFFF, word & 0xFFFF


def collections(words, base=layout.COLLECTIONS):
    """The collections of a table in their order: up to the first entry that isn't valid."""
    found = []
    address = base
    while words.get(address, 0) >> 63:
        found.append(collection_fields(words[address]))
        address += 8
    return found


def collection_differences(theirs, ours):
    """The names of what differs in two collection tables, of KVM and of `its`; None where it is more than that."""
    names = []
    mapped = [entry for entry in theirs if entry[1] != layout.UNMAPPED]
    here = [entry for entry in ours if entry[1] != layout.UNMAPPED]
    if sorted(mapped) != sorted(here) or not set(ours) <= set(theirs):
        return None
    alone = {entry for entry in theirs if entry not in mapped} - {entry for entry in ours if entry not in here}
    if alone:
        names.append(UNNAMED)
    if [entry for entry in theirs if entry not in alone] != ours:
        names.append("collections stand in the order in which they came")
    return names


class Maps:
    """What saved tables map, as a restore walks through them: devices with their events, and collections."""

    def __init__(self, words, shape):
        self.collections = dict(collections(words))
        self.tables = {device: device_fields(words[address]) for device, address in devices(words, shape)}
        self.entries = dict(devices(words, shape))
        self.devices = {device: events(words, *table) for device, table in self.tables.items()}

    def target(self, icid):
        """The processor of a collection, or None."""
        target = self.collections.get(icid, layout.UNMAPPED)
        return None if target == layout.UNMAPPED else target

    def all_events(self):
        """Each mapped event, in the order of the walk: device, event, INTID, ICID."""
        return [(device, event, intid, icid) for device in sorted(self.devices)
                for event, (intid, icid) in sorted(self.devices[device].items())]

    def first_event(self, intid):
        """The first event of an LPI, or None."""
        return next(((d, e) for d, e, lpi, icid in self.all_events() if lpi == intid), None)

    def is_alone(self, intid):
        """Whether one event has this LPI."""
        return sum(lpi == intid for _, _, lpi, _ in self.all_events()) == 1

    def one_target(self, intid):
        """The processor that KVM's restore gives an LPI: that of its first event."""
        first = self.first_event(intid)
        return first and self.target(self.devices[first[0]][first[1]][1])


def walk(words, base, count, valid, next_of):
    """The entries that a walk reaches from the first place on, by index, and whether an entry ended it."""
    found, index = [], 0
    while index < count:
        word = words.get(base + 8 * index, 0)
        if not valid(word):
            index += 1
            continue
        found.append(index)
        if not next_of(word):
            return found, True
        index += next_of(word)
    return found, False


def devices(words, shape):
    """Each mapped device with the address of its entry."""
    def next_of(word):
        return word >> 49 & 0x3FFF
    found = []
    pages = sorted(shape.level1().items()) if shape.levels else [(0, layout.DEVICES)]
    for k, page in pages:
        count = layout.PER_PAGE * (1 if shape.levels else shape.device_pages)
        reached, ended = walk(words, page, count, lambda word: word >> 63, next_of)
        found += [(layout.PER_PAGE * k + index, page + 8 * index) for index in reached]
        if ended:
            break
    return found


def events(words, itt, bits):
    """The events of one table."""
    reached, _ = walk(words, itt, 1 << bits, lambda word: event_fields(word)[0], lambda word: word >> 48)
    return {event: event_fields(words[itt + 8 * event]) for event in reached}
