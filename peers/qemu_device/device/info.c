/*
 * What the device tells of itself: `info pic` of the human monitor, and the property `info`.
 *
 * SPDX-License-Identifier: MIT OR Apache-2.0
 */
#include "qemu/osdep.h"
#include "qapi/error.h"
#include "hw/intc/intc.h"
#include "bacciledru.h"

enum { PIECE = 4096, TOLD = 64 };  /* elements of a list that are asked at once; lines of one kind */

typedef struct Mapped {
    uint64_t devices;
    uint64_t events;
    uint64_t collections;
} Mapped;

static uint64_t events_of(BacciledruIts *s, uint32_t device)
{
    g_autofree struct its_mapping_out *piece = g_new(struct its_mapping_out, PIECE);
    uint64_t all = 0, count;
    uint32_t from = 0;

    do {
        count = 0;
        bacciledru_done(s, "its_list_events",
                        its_list_events(s->handle, 0, device, from, piece, PIECE, &count));
        all += count;
        from = count > 0 ? piece[count - 1].event + 1 : 0;
    } while (count == PIECE);
    return all;
}

static void tell_device(BacciledruIts *s, const struct its_device_out *it, Mapped *mapped,
                        GString *lines)
{
    uint64_t events = events_of(s, it->device);

    mapped->events += events;
    if (mapped->devices++ < TOLD) {
        g_string_append_printf(lines, "    device 0x%x: %u EventID bits, table at 0x%" PRIx64
                               ", %" PRIu64 " events\n", it->device, it->event_bits, it->itt,
                               events);
    }
}

static void tell_more(uint64_t count, const char *of, GString *lines)
{
    if (count > TOLD) {
        g_string_append_printf(lines, "    and %" PRIu64 " more %s\n", count - TOLD, of);
    }
}

static void tell_devices(BacciledruIts *s, Mapped *mapped, GString *lines)
{
    g_autofree struct its_device_out *piece = g_new(struct its_device_out, PIECE);
    uint64_t count;
    uint32_t from = 0;

    do {
        count = 0;
        bacciledru_done(s, "its_list_devices",
                        its_list_devices(s->handle, 0, from, piece, PIECE, &count));
        for (uint64_t i = 0; i < count; i++) {
            tell_device(s, &piece[i], mapped, lines);
        }
        from = count > 0 ? piece[count - 1].device + 1 : 0;
    } while (count == PIECE);
    tell_more(mapped->devices, "devices", lines);
}

static void tell_collections(BacciledruIts *s, Mapped *mapped, GString *lines)
{
    g_autofree struct its_collection_out *piece = g_new(struct its_collection_out, PIECE);
    uint64_t count;
    uint32_t from = 0;

    do {
        count = 0;
        bacciledru_done(s, "its_list_collections",
                        its_list_collections(s->handle, 0, from, piece, PIECE, &count));
        for (uint64_t i = 0; i < count; i++) {
            if (mapped->collections++ < TOLD) {
                g_string_append_printf(lines, "    collection %u: processor %u\n",
                                       piece[i].collection, piece[i].vcpu);
            }
        }
        from = count > 0 ? piece[count - 1].collection + 1 : 0;
    } while (count == PIECE);
    tell_more(mapped->collections, "collections", lines);
}

static void tell_mapped(BacciledruIts *s, GString *text)
{
    g_autoptr(GString) lines = g_string_new(NULL);
    Mapped mapped = { 0 };

    tell_devices(s, &mapped, lines);
    tell_collections(s, &mapped, lines);
    g_string_append_printf(text, "  mapped: %" PRIu64 " devices, %" PRIu64 " events, %" PRIu64
                           " collections\n%s", mapped.devices, mapped.events, mapped.collections,
                           lines->str);
}

static void tell_processors(BacciledruIts *s, GString *text)
{
    uint64_t count;

    for (int i = 0; i < s->gic->num_cpu; i++) {
        if (s->gic->cpu[i].gicr_ctlr & GICR_CTLR_ENABLE_LPIS) {
            count = 0;
            its_pending(s->handle, i, NULL, 0, &count);
            g_string_append_printf(text, "  processor %d: LPIs on, %" PRIu64 " pending\n", i,
                                   count);
        }
    }
}

/* The fields of its counts are in the order of the numbers of causes, and of reasons. */
static void tell_signals(const struct its_signal_counts *signals, GString *text)
{
    const uint64_t *counts = (const uint64_t *)signals;
    uint32_t len = sizeof(*signals) / sizeof(*counts);

    g_string_append(text, "  signals:");
    for (uint32_t i = 0; i < len; i++) {
        g_autofree char *word = bacciledru_word(ITS_LIST_CAUSES, i);

        g_string_append_printf(text, " %s %" PRIu64 "%s", word, counts[i],
                               i + 1 < len ? "," : "\n");
    }
}

static void tell_commands(BacciledruIts *s, const struct its_refused_counts *refused,
                          GString *text)
{
    g_autoptr(GString) lines = g_string_new(NULL);
    const uint64_t *counts = (const uint64_t *)refused;
    const Counters *of = &s->counters;
    uint64_t all = 0;

    for (uint32_t i = 0; i < sizeof(*refused) / sizeof(*counts); i++) {
        g_autofree char *word = bacciledru_word(ITS_LIST_REASONS, i + 1);

        all += counts[i];
        if (counts[i] > 0) {
            g_string_append_printf(lines, "    %s: %" PRIu64 " refused\n", word, counts[i]);
        }
    }
    g_string_append_printf(text, "  acknowledged: %" PRIu64 "\n  commands: ran %" PRIu64
                           ", refused %" PRIu64 "; slices %" PRIu64 ", longest %" PRId64
                           " ns; longest write %" PRId64 " ns\n%s", of->acknowledged, of->ran,
                           all, of->slices, of->longest_slice, of->longest_write, lines->str);
}

static void tell_refusals(BacciledruIts *s, GString *text)
{
    uint64_t count = s->counters.remembered;

    for (uint64_t i = count > REFUSALS ? count - REFUSALS : 0; i < count; i++) {
        Refusal *it = &s->refusals[i % REFUSALS];
        g_autofree char *reason = bacciledru_word(ITS_LIST_REASONS, it->reason);

        g_string_append_printf(text, "  refused at 0x%" PRIx64 ": 0x%016" PRIx64 " 0x%016" PRIx64
                               ": %s\n", it->place, it->words[0], it->words[1], reason);
    }
}

static char *tell(BacciledruIts *s)
{
    GString *text = g_string_new(TYPE_BACCILEDRU_ITS ":\n");
    const Counters *of = &s->counters;
    struct its_counters counted;

    if (!s->made) {
        g_string_append(text, "  not reset yet\n");
        return g_string_free(text, false);
    }
    g_string_append_printf(text, "  GITS_CTLR 0x%" PRIx64 " CREADR 0x%" PRIx64 " CWRITER 0x%"
                           PRIx64 "\n", bacciledru_register(s, GITS_CTLR, 4),
                           bacciledru_register(s, GITS_CREADR, 8),
                           bacciledru_register(s, GITS_CWRITER, 8));
    counted = bacciledru_counted(s);
    tell_mapped(s, text);
    tell_processors(s, text);
    tell_signals(&counted.signals, text);
    tell_commands(s, &counted.refused, text);
    g_string_append_printf(text, "  saves: %" PRIu64 ", refused %" PRIu64 "; windows: %zu, added "
                           "while it ran %" PRIu64 ", machines anew %" PRIu64 "; failures: %"
                           PRIu64 "\n", of->saves, of->not_saved, s->had_len, of->added,
                           of->widened, of->failures);
    if (s->unsaved) {
        g_string_append_printf(text, "  last save: %s\n", error_get_pretty(s->unsaved));
    }
    tell_refusals(s, text);
    return g_string_free(text, false);
}

#if QEMU_VERSION_MAJOR >= 10
static void print_info(InterruptStatsProvider *provider, GString *text)
{
    g_autofree char *told = tell(BACCILEDRU_ITS(provider));

    g_string_append(text, told);
}
#else
static void print_info(InterruptStatsProvider *provider, Monitor *monitor)
{
    g_autofree char *told = tell(BACCILEDRU_ITS(provider));

    monitor_printf(monitor, "%s", told);
}
#endif

static char *get_info(Object *object, Error **errp)
{
    return tell(BACCILEDRU_ITS(object));
}

void bacciledru_info_init(ObjectClass *class)
{
    INTERRUPT_STATS_PROVIDER_CLASS(class)->print_info = print_info;
    object_class_property_add_str(class, "info", get_info, NULL);
    object_class_property_set_description(class, "info",
                                          "what is mapped and pending, counters, refused commands");
}
