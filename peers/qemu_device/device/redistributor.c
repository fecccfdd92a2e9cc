/*
 * The LPI side of the redistributors, which is the library's.
 *
 * SPDX-License-Identifier: MIT OR Apache-2.0
 */
#include "qemu/osdep.h"
#include "qemu/error-report.h"
#include "bacciledru.h"
#include "hw/intc/trace.h"

static int number_of(GICv3CPUState *cs)
{
    return cs - cs->gic->cpu;
}

static uint64_t read_lpi_register(DeviceState *its, GICv3CPUState *cs, hwaddr offset,
                                  unsigned size)
{
    BacciledruIts *s = BACCILEDRU_ITS(its);
    uint64_t value = 0;

    bacciledru_done(s, "its_read_lpi_register",
                    its_read_lpi_register(s->handle, number_of(cs), offset, size, &value));
    return value;
}

/* What the library reads of guest memory at a write of a register, as it stands there now. */
static void copy_for(BacciledruIts *s, GICv3CPUState *cs, hwaddr offset, uint64_t value)
{
    uint32_t place = value - GICV3_LPI_INTID_START;

    if (offset == GICR_CTLR && (value & ~cs->gicr_ctlr & GICR_CTLR_ENABLE_LPIS)) {
        bacciledru_copy_in(s, bacciledru_config_of(cs), CONFIG_BYTES);
        bacciledru_copy_in(s, bacciledru_pending_of(cs), PENDING_BYTES);
    } else if (offset == GICR_INVLPIR && place < CONFIG_BYTES) {
        bacciledru_copy_in(s, bacciledru_config_of(cs) + place, 1);
    } else if (offset == GICR_INVALLR) {
        bacciledru_copy_in(s, bacciledru_config_of(cs), CONFIG_BYTES);
    }
}

static void write_one(BacciledruIts *s, int vcpu, hwaddr offset, unsigned size, uint64_t value)
{
    bacciledru_done(s, "its_write_lpi_register",
                    its_write_lpi_register(s->handle, vcpu, offset, size, value));
    bacciledru_keep_lpi_registers(s, vcpu);
    bacciledru_update_line(s, vcpu);
}

/*
 * Out of memory LPIs stay off, and GICR_CTLR reads so. GICR_INVLPIR and GICR_INVALLR are written for
 * all processors that have the same configuration table: a Linux writes them at the processor that
 * has the LPI, and nothing more when MOVI takes it to another.
 */
static void write_lpi_register(DeviceState *its, GICv3CPUState *cs, hwaddr offset, unsigned size,
                               uint64_t value)
{
    BacciledruIts *s = BACCILEDRU_ITS(its);
    hwaddr whole = offset & ~7ULL;

    trace_bacciledru_lpi_register(number_of(cs), offset, value);
    copy_for(s, cs, offset, value);
    if (whole != GICR_INVLPIR && whole != GICR_INVALLR) {
        write_one(s, number_of(cs), offset, size, value);
        return;
    }
    for (int i = 0; i < s->gic->num_cpu; i++) {
        GICv3CPUState *other = &s->gic->cpu[i];

        if (other == cs || ((other->gicr_ctlr & GICR_CTLR_ENABLE_LPIS) &&
                            bacciledru_config_of(other) == bacciledru_config_of(cs))) {
            write_one(s, i, offset, size, value);
        }
    }
}

static void acknowledge(DeviceState *its, GICv3CPUState *cs, int intid)
{
    BacciledruIts *s = BACCILEDRU_ITS(its);
    int vcpu = number_of(cs);
    struct its_ack_out taken = { 0 };

    bacciledru_done(s, "its_claim", its_claim(s->handle, vcpu, intid, &taken));
    trace_bacciledru_acknowledge(vcpu, intid, taken.intid);
    s->counters.acknowledged += taken.intid == intid;
    bacciledru_update_line(s, vcpu);
}

const GICv3LPIOps bacciledru_lpi_ops = {
    .read = read_lpi_register,
    .write = write_lpi_register,
    .acknowledge = acknowledge,
};
