/*
 * The library's machine: made at a reset, from a state that was loaded, or anew where windows grew.
 *
 * SPDX-License-Identifier: MIT OR Apache-2.0
 */
#include "qemu/osdep.h"
#include "qemu/cutils.h"
#include "qemu/error-report.h"
#include "qapi/error.h"
#include "bacciledru.h"
#include "hw/intc/trace.h"

enum { PAGE = 4096 };

/* What a machine is restored from: pages that have a byte of a table, each once, but for zeros. */
typedef struct Fills {
    Source source;
    GHashTable *pages;
    GArray *list;
    GByteArray *bytes;
} Fills;

/* So a state that was loaded takes as much memory as the guest has, whatever its tables name. */
static void add_pages(BacciledruIts *s, enum its_region kind, uint64_t address, uint64_t length,
                      void *opaque)
{
    Fills *fills = opaque;
    Source source = kind == ITS_REGION_CONFIG_OF ? FROM_GUEST : fills->source;
    uint8_t page[PAGE];

    s->mapped += kind == ITS_REGION_ITT ? length / 8 : 0;
    for (uint64_t at = QEMU_ALIGN_DOWN(address, PAGE); at < address + length; at += PAGE) {
        struct its_fill_in fill = { at, PAGE };

        if (!g_hash_table_add(fills->pages, GSIZE_TO_POINTER(at / PAGE)) ||
            !bacciledru_is_ram(s, at, PAGE)) {
            continue;
        }
        bacciledru_read(s, source, at, page, PAGE);
        if (!buffer_is_zero(page, PAGE)) {
            g_array_append_val(fills->list, fill);
            g_byte_array_append(fills->bytes, page, PAGE);
        }
    }
}

static struct its_description_in description(BacciledruIts *s, Source source)
{
    return (struct its_description_in) {
        .vcpus = s->gic->num_cpu, .device_bits = 16, .lpi_bits = 16, .profile = 1,
        .programmed = 1, .restored = source != FROM_NOTHING, .linux_guest = 1,
        .event_limit = EVENTS, .device_limit = UINT64_MAX, .memory_limit = UINT64_MAX,
    };
}

/* The registers that QEMU keeps, which count where a state is restored. */
static struct its_translator_in translator(BacciledruIts *s)
{
    GICv3ITSState *its = &s->parent_obj;

    return (struct its_translator_in) {
        .ctlr = its->ctlr, .cbaser = its->cbaser, .creadr = its->creadr,
        .cwriter = its->cwriter, .baser0 = its->baser[0], .baser1 = its->baser[1],
    };
}

/* Says why these tables are no translator's. */
static void explain(const struct its_make_fault_out *fault, Error **errp)
{
    g_autofree char *kind = bacciledru_word(ITS_LIST_MAKE_FAULTS, fault->kind);

    error_setg(errp, TYPE_BACCILEDRU_ITS ": these tables are no translator's: %s (device 0x%x "
               "event %u intid %u collection %u processor %u number %" PRIu64 " address 0x%"
               PRIx64 " register 0x%x)", kind, fault->device, fault->event, fault->intid,
               fault->collection, fault->vcpu, fault->number, fault->address,
               fault->register_offset);
}

/* The new machine stands before the old one is freed, which goes on where there is none. */
static bool replace(BacciledruIts *s, Fills *fills, Error **errp)
{
    g_autofree struct its_redistributor_in *registers =
        g_new0(struct its_redistributor_in, s->gic->num_cpu);
    struct its_description_in numbers = description(s, fills->source);
    struct its_translator_in its = translator(s);
    struct its_handle none = ITS_NO_MACHINE, *handle = g_memdup2(&none, sizeof(none));
    struct its_make_fault_out fault;
    uint32_t answer;

    for (int i = 0; i < s->gic->num_cpu; i++) {
        registers[i].ctlr = s->gic->cpu[i].gicr_ctlr;
        registers[i].propbaser = s->gic->cpu[i].gicr_propbaser;
        registers[i].pendbaser = s->gic->cpu[i].gicr_pendbaser;
    }
    answer = its_new(handle, &numbers, &its, 1, s->windows, s->windows_len, NULL, 0, registers,
                     s->gic->num_cpu, NULL, 0, (struct its_fill_in *)fills->list->data,
                     fills->list->len, fills->bytes->data, fills->bytes->len, &fault);
    if (answer != ITS_DONE) {
        g_free(handle);
        if (answer == ITS_FAULT) {
            explain(&fault, errp);
        } else {
            g_autofree char *word = bacciledru_word(ITS_LIST_ANSWERS, answer);

            error_setg(errp, TYPE_BACCILEDRU_ITS ": its_new answers %s", word);
        }
        return false;
    }
    if (s->made) {
        s->before = bacciledru_counted(s);
        bacciledru_done(s, "its_free", its_free(s->handle));
    }
    g_free(s->handle);
    s->handle = handle;
    s->made = true;
    memcpy(s->had, s->windows, s->windows_len * sizeof(*s->windows));
    s->had_len = s->windows_len;
    return true;
}

bool bacciledru_make(BacciledruIts *s, Source source, Error **errp)
{
    g_autoptr(GHashTable) pages = g_hash_table_new(NULL, NULL);
    g_autoptr(GArray) list = g_array_new(false, false, sizeof(struct its_fill_in));
    g_autoptr(GByteArray) bytes = g_byte_array_new();
    Fills fills = { source, pages, list, bytes };

    s->mapped = 0;
    if (source != FROM_NOTHING) {
        bacciledru_walk(s, source, add_pages, &fills);
    }
    if (!replace(s, &fills, errp)) {
        return false;
    }
    trace_bacciledru_made(source, s->windows_len, list->len);
    s->wider = false;
    for (int i = 0; i < s->gic->num_cpu; i++) {
        bacciledru_keep_lpi_registers(s, i);
        bacciledru_show_first(s, i);
    }
    return true;
}
