/*
 * A state saved and loaded. Tables are saved as the virtual machine stops: when QEMU saves registers,
 * memory was sent. QEMU loads memory first, then the redistributors, then this.
 *
 * SPDX-License-Identifier: MIT OR Apache-2.0
 */
#include "qemu/osdep.h"
#include "qemu/error-report.h"
#include "qapi/error.h"
#include "bacciledru.h"
#include "hw/intc/trace.h"

/* Says why a state can't be saved. */
static void explain(const struct its_save_fault_out *fault, Error **errp)
{
    g_autofree char *kind = bacciledru_word(ITS_LIST_SAVE_FAULTS, fault->kind);
    g_autofree char *region = bacciledru_word(ITS_LIST_REGIONS, fault->region);
    g_autofree char *other = bacciledru_word(ITS_LIST_REGIONS, fault->other_region);

    switch (fault->kind) {
    case ITS_SAVE_NO_PLACE:
        error_setg(errp, TYPE_BACCILEDRU_ITS ": tables not saved: %s of device 0x%x", kind,
                   fault->device);
        break;
    case ITS_SAVE_OVERLAP:
        error_setg(errp, TYPE_BACCILEDRU_ITS ": tables not saved: %s of %s %u and %s %u", kind,
                   region, fault->number, other, fault->other_number);
        break;
    default:
        error_setg(errp, TYPE_BACCILEDRU_ITS ": tables not saved: %s of %s %u", kind, region,
                   fault->number);
    }
}

/* Into the library's copy. The first level of devices is the guest's own, and copied in before. */
bool bacciledru_save_inside(BacciledruIts *s, Error **errp)
{
    struct its_save_fault_out fault;
    uint64_t baser = bacciledru_register(s, GITS_BASER, 8);
    uint32_t answer;

    if (baser >> 62 == 3) {
        bacciledru_copy_in(s, bacciledru_table_of(baser), 8 * TABLE_PAGES);
    }
    answer = its_save(s->handle, &fault);
    if (answer == ITS_FAULT) {
        explain(&fault, errp);
        return false;
    }
    if (!bacciledru_done(s, "its_save", answer)) {
        error_setg(errp, TYPE_BACCILEDRU_ITS ": tables not saved: no memory of the host");
        return false;
    }
    return true;
}

/* The tables that a save wrote. */
static struct its_stretch_out *written(BacciledruIts *s, uint64_t *count)
{
    struct its_stretch_out *tables;

    *count = 0;
    bacciledru_done(s, "its_written", its_written(s->handle, NULL, 0, count));
    tables = g_new(struct its_stretch_out, *count);
    bacciledru_done(s, "its_written", its_written(s->handle, tables, *count, count));
    return tables;
}

/* All tables to the guest's memory, or none. */
static bool write_tables(BacciledruIts *s, Error **errp)
{
    g_autofree struct its_stretch_out *tables = NULL;
    uint64_t count;

    if (!bacciledru_save_inside(s, errp)) {
        return false;
    }
    tables = written(s, &count);
    for (uint64_t i = 0; i < count; i++) {
        if (!bacciledru_is_ram(s, tables[i].address, tables[i].length)) {
            error_setg(errp, TYPE_BACCILEDRU_ITS ": tables not saved: 0x%" PRIx64 " bytes at 0x%"
                       PRIx64 " aren't RAM", tables[i].length, tables[i].address);
            return false;
        }
    }
    for (uint64_t i = 0; i < count; i++) {
        if (!bacciledru_copy_out(s, tables[i].address, tables[i].length)) {
            error_setg(errp, TYPE_BACCILEDRU_ITS ": tables not saved: not copied out");
            return false;
        }
    }
    trace_bacciledru_saved(count);
    return true;
}

/* Where it fails a migration that is under way fails with it, and the guest goes on. */
void bacciledru_save(BacciledruIts *s)
{
    error_free(s->unsaved);
    s->unsaved = NULL;
    if (write_tables(s, &s->unsaved)) {
        s->counters.saves++;
        return;
    }
    s->counters.not_saved++;
    trace_bacciledru_not_saved(error_get_pretty(s->unsaved));
    fail_migration(s->unsaved);
}

int bacciledru_pre_save(void *opaque)
{
    BacciledruIts *s = BACCILEDRU_ITS(opaque);

    if (s->unsaved) {
        error_report("%s", error_get_pretty(s->unsaved));
        return -EINVAL;
    }
    bacciledru_keep_registers(s);
    return 0;
}

int bacciledru_post_load(void *opaque, int version)
{
    BacciledruIts *s = BACCILEDRU_ITS(opaque);
    Error *error = NULL;

    if (!bacciledru_make(s, FROM_GUEST, &error)) {
        error_report_err(error);
        return -EINVAL;
    }
    error_free(s->unsaved);
    s->unsaved = NULL;
    gicv3_full_update_noirqset(s->gic);
    return 0;
}
