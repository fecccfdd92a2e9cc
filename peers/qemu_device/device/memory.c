/*
 * Guest memory: what of it is RAM, and bytes copied in and out.
 *
 * SPDX-License-Identifier: MIT OR Apache-2.0
 */
#include "qemu/osdep.h"
#include "bacciledru.h"

/* RAM that tables may lie in: no ROM, and no memory of a device. */
static bool is_usable(MemoryRegion *region)
{
    return memory_region_is_ram(region) && !memory_region_is_ram_device(region) &&
           !region->readonly;
}

bool bacciledru_is_ram(BacciledruIts *s, uint64_t address, uint64_t length)
{
    hwaddr at, count;

    RCU_READ_LOCK_GUARD();
    if (length > UINT64_MAX - address) {
        return false;
    }
    for (; length > 0; address += count, length -= count) {
        count = length;
        if (!is_usable(address_space_translate(&s->gic->dma_as, address, &at, &count, true,
                                               MEMTXATTRS_UNSPECIFIED))) {
            return false;
        }
    }
    return true;
}

void bacciledru_guest_read(BacciledruIts *s, uint64_t address, void *bytes, uint64_t length)
{
    address_space_read(&s->gic->dma_as, address, MEMTXATTRS_UNSPECIFIED, bytes, length);
}

/*
 * What the guest has there goes into the library's copy: zeros where there is no RAM, as where it
 * went. The library says itself where no window is. False where the host has no memory for it.
 */
bool bacciledru_copy_in(BacciledruIts *s, uint64_t address, uint64_t length)
{
    g_autofree uint8_t *bytes = NULL;
    uint32_t answer;

    if (bacciledru_is_ram(s, address, length)) {
        bytes = g_malloc(length);
        bacciledru_guest_read(s, address, bytes, length);
        answer = its_write_memory(s->handle, address, bytes, length);
    } else {
        answer = its_forget(s->handle, address, length);
    }
    return answer == ITS_OUTSIDE || bacciledru_done(s, "its_write_memory", answer);
}

/* What a save wrote goes to the guest, and the library need not keep it. */
bool bacciledru_copy_out(BacciledruIts *s, uint64_t address, uint64_t length)
{
    g_autofree uint8_t *bytes = g_malloc(length);

    if (!bacciledru_done(s, "its_read_memory",
                         its_read_memory(s->handle, address, bytes, length))) {
        return false;
    }
    address_space_write(&s->gic->dma_as, address, MEMTXATTRS_UNSPECIFIED, bytes, length);
    return bacciledru_done(s, "its_forget", its_forget(s->handle, address, length));
}

static void region_added(MemoryListener *listener, MemoryRegionSection *section)
{
    BacciledruIts *s = container_of(listener, BacciledruIts, listener);
    uint64_t base = section->offset_within_address_space;

    if (is_usable(section->mr)) {
        bacciledru_note_window(s, base, base + int128_get64(section->size));
    }
}

static void regions_changed(MemoryListener *listener)
{
    BacciledruIts *s = container_of(listener, BacciledruIts, listener);

    if (s->wider && s->made) {
        bacciledru_widen(s);
    }
}

/* From now on the windows have all RAM. */
void bacciledru_listen(BacciledruIts *s)
{
    s->listener = (MemoryListener) {
        .name = TYPE_BACCILEDRU_ITS,
        .region_add = region_added,
        .commit = regions_changed,
    };
    memory_listener_register(&s->listener, &s->gic->dma_as);
}
