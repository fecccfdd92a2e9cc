/*
 * All tables that the registers name, and the entries of these, in the format of a save: KVM's, ABI
 * revision 0.
 *
 * SPDX-License-Identifier: MIT OR Apache-2.0
 */
#include "qemu/osdep.h"
#include "bacciledru.h"

uint64_t bacciledru_table_of(uint64_t baser)
{
    return (baser & MAKE_64BIT_MASK(16, 32)) | extract64(baser, 12, 4) << 48;
}

uint64_t bacciledru_config_of(GICv3CPUState *cs)
{
    return cs->gicr_propbaser & R_GICR_PROPBASER_PHYADDR_MASK;
}

/* From the first byte on that has an LPI's bit. */
uint64_t bacciledru_pending_of(GICv3CPUState *cs)
{
    return (cs->gicr_pendbaser & R_GICR_PENDBASER_PHYADDR_MASK) + PENDING_FROM;
}

/* Bytes of the guest's memory or of the library's copy; zeros where there are none. */
void bacciledru_read(BacciledruIts *s, Source source, uint64_t address, void *bytes,
                     uint64_t length)
{
    memset(bytes, 0, length);
    if (source == FROM_LIBRARY) {
        its_read_memory(s->handle, address, bytes, length);
    } else if (bacciledru_is_ram(s, address, length)) {
        bacciledru_guest_read(s, address, bytes, length);
    }
}

/* A stretch of the device table, and the interrupt translation tables of its devices. */
static void walk_devices(BacciledruIts *s, Source source, enum its_region kind, uint64_t table,
                         uint64_t count, TableAt *at, void *opaque)
{
    g_autofree uint64_t *entries = g_new(uint64_t, count);

    at(s, kind, table, 8 * count, opaque);
    bacciledru_read(s, source, table, entries, 8 * count);
    for (uint64_t i = 0; i < count; i++) {
        uint64_t entry = le64_to_cpu(entries[i]);

        if (entry >> 63 && (entry & 31) < 16) {
            at(s, ITS_REGION_ITT, extract64(entry, 5, 44) << 8, 16ULL << (entry & 31), opaque);
        }
    }
}

static void walk_level1(BacciledruIts *s, Source source, uint64_t table, TableAt *at, void *opaque)
{
    uint64_t pages[TABLE_PAGES];

    at(s, ITS_REGION_LEVEL1, table, sizeof(pages), opaque);
    bacciledru_read(s, source, table, pages, sizeof(pages));
    for (int i = 0; i < TABLE_PAGES; i++) {
        uint64_t entry = le64_to_cpu(pages[i]);

        if (entry >> 63) {
            walk_devices(s, source, ITS_REGION_PAGE, entry & MAKE_64BIT_MASK(16, 36),
                         TABLE_PAGE / 8, at, opaque);
        }
    }
}

static uint64_t pages_of(uint64_t baser)
{
    return MIN((baser & 0xFF) + 1, TABLE_PAGES);
}

/* The registers are those that QEMU keeps, as it loaded them or as the library told them. */
void bacciledru_walk(BacciledruIts *s, Source source, TableAt *at, void *opaque)
{
    const uint64_t *baser = s->parent_obj.baser;

    if (baser[0] >> 62 == 3) {
        walk_level1(s, source, bacciledru_table_of(baser[0]), at, opaque);
    } else if (baser[0] >> 63) {
        walk_devices(s, source, ITS_REGION_DEVICES, bacciledru_table_of(baser[0]),
                     TABLE_PAGE / 8 * pages_of(baser[0]), at, opaque);
    }
    if (baser[1] >> 63) {
        at(s, ITS_REGION_COLLECTIONS, bacciledru_table_of(baser[1]),
           TABLE_PAGE * pages_of(baser[1]), opaque);
    }
    for (int i = 0; i < s->gic->num_cpu; i++) {
        GICv3CPUState *cs = &s->gic->cpu[i];

        if (cs->gicr_ctlr & GICR_CTLR_ENABLE_LPIS) {
            at(s, ITS_REGION_CONFIG_OF, bacciledru_config_of(cs), CONFIG_BYTES, opaque);
            at(s, ITS_REGION_PENDING, bacciledru_pending_of(cs), PENDING_BYTES, opaque);
        }
    }
}
