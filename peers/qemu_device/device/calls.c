/*
 * What the library answers, and what a processor sees of it.
 *
 * SPDX-License-Identifier: MIT OR Apache-2.0
 */
#include "qemu/osdep.h"
#include "qemu/error-report.h"
#include "bacciledru.h"

/* The word that a number has in docs/FORMATS.md. */
char *bacciledru_word(uint32_t list, uint32_t number)
{
    char text[32] = "";
    uint64_t length = 0;

    its_text(list, number, (uint8_t *)text, sizeof(text) - 1, &length);
    return g_strndup(text, MIN(length, sizeof(text) - 1));
}

/* Whether a call was made. Where it wasn't QEMU goes on; of very many failures some are told. */
bool bacciledru_done(BacciledruIts *s, const char *call, uint32_t answer)
{
    g_autofree char *word = NULL;

    if (answer == ITS_DONE) {
        return true;
    }
    if (s->counters.failures++ % 4096 == 0) {
        word = bacciledru_word(ITS_LIST_ANSWERS, answer);
        error_report(TYPE_BACCILEDRU_ITS ": %s answers %s", call, word);
    }
    return false;
}

/* What was counted since the last reset: a machine counts from 0 on, also one in another's place. */
struct its_counters bacciledru_counted(BacciledruIts *s)
{
    struct its_counters all = { 0 };
    uint64_t *sums = (uint64_t *)&all;
    const uint64_t *before = (const uint64_t *)&s->before;

    bacciledru_done(s, "its_counters", its_counters(s->handle, &all));
    for (size_t i = 0; i < sizeof(all) / sizeof(*sums); i++) {
        sums[i] += before[i];
    }
    return all;
}

uint64_t bacciledru_register(BacciledruIts *s, uint32_t offset, uint32_t size)
{
    uint64_t value = 0;

    bacciledru_done(s, "its_read_register",
                    its_read_register(s->handle, 0, offset, size, &value));
    return value;
}

/* The registers, for QEMU, which migrates them. */
void bacciledru_keep_registers(BacciledruIts *s)
{
    GICv3ITSState *its = &s->parent_obj;

    its->ctlr = bacciledru_register(s, GITS_CTLR, 4);
    its->cbaser = bacciledru_register(s, GITS_CBASER, 8);
    its->cwriter = bacciledru_register(s, GITS_CWRITER, 8);
    its->creadr = bacciledru_register(s, GITS_CREADR, 8);
    its->baser[0] = bacciledru_register(s, GITS_BASER, 8);
    its->baser[1] = bacciledru_register(s, GITS_BASER + 8, 8);
}

/* A redistributor's registers, for QEMU, which weighs interrupts by them and migrates them. */
void bacciledru_keep_lpi_registers(BacciledruIts *s, int vcpu)
{
    GICv3CPUState *cs = &s->gic->cpu[vcpu];
    struct its_redistributor_in stored;

    if (bacciledru_done(s, "its_stored_lpi_registers",
                        its_stored_lpi_registers(s->handle, vcpu, &stored))) {
        cs->gicr_ctlr = deposit32(cs->gicr_ctlr, 0, 1, stored.ctlr);
        cs->gicr_propbaser = stored.propbaser;
        cs->gicr_pendbaser = stored.pendbaser;
    }
}

/* The LPI that comes first at a processor, where QEMU weighs it against its other interrupts. */
void bacciledru_show_first(BacciledruIts *s, int vcpu)
{
    PendingIrq *shown = &s->gic->cpu[vcpu].hpplpi;
    struct its_ack_out first = { 0 };

    bacciledru_done(s, "its_best", its_best(s->handle, vcpu, 0xFF, &first));
    shown->irq = first.intid;
    shown->grp = GICV3_G1NS;
    shown->prio = first.intid == 0 ? 0xFF : s->gic->gicd_ctlr & GICD_CTLR_DS ? first.priority :
                  first.priority >> 1 | 0x80;
}

void bacciledru_update_line(BacciledruIts *s, int vcpu)
{
    bacciledru_show_first(s, vcpu);
    gicv3_redist_update(&s->gic->cpu[vcpu]);
}
