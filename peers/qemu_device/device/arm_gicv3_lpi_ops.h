/*
 * What the LPI side of a GIC's redistributors is, where an ITS keeps it itself: the reads and writes
 * of its registers, and what an acknowledgement does. QEMU's redistributor asks here first (wire.py).
 *
 * SPDX-License-Identifier: MIT OR Apache-2.0
 */
#ifndef HW_INTC_ARM_GICV3_LPI_OPS_H
#define HW_INTC_ARM_GICV3_LPI_OPS_H

#include "hw/intc/gicv3_internal.h"

#ifdef PRELOADED
typedef struct GICv3LPIOps GICv3LPIOps;
#endif

struct GICv3LPIOps {
    uint64_t (*read)(DeviceState *its, GICv3CPUState *cs, hwaddr offset, unsigned size);
    void (*write)(DeviceState *its, GICv3CPUState *cs, hwaddr offset, unsigned size,
                  uint64_t value);
    void (*acknowledge)(DeviceState *its, GICv3CPUState *cs, int intid);
};

#ifdef PRELOADED           /* preload.c has what else are fields of the GIC */
extern const GICv3LPIOps *gicv3_preloaded_ops;
extern DeviceState *gicv3_preloaded_its;
#define gicv3_lpi_ops(gic) gicv3_preloaded_ops
#define gicv3_lpi_its(gic) gicv3_preloaded_its
#else
#define gicv3_lpi_ops(gic) ((gic)->lpi_ops)
#define gicv3_lpi_its(gic) ((gic)->lpi_its)
#endif

/*
 * Whether the register is one of these. GICR_SYNCR is, which reads zero as long as nothing is under
 * way; and GICR_CTLR, whose bits say besides that GICR_INVLPIR and GICR_INVALLR are there.
 */
static inline bool gicv3_is_lpi_register(hwaddr offset, unsigned size)
{
    hwaddr whole = offset & ~7ULL;

    return size >= 4 && (offset == GICR_CTLR || whole == GICR_PROPBASER ||
                         whole == GICR_PENDBASER || whole == GICR_INVLPIR ||
                         whole == GICR_INVALLR || offset == GICR_SYNCR);
}

static inline bool gicv3_lpi_read(GICv3CPUState *cs, hwaddr offset, uint64_t *value, unsigned size)
{
    const GICv3LPIOps *ops = gicv3_lpi_ops(cs->gic);

    if (!ops || !gicv3_is_lpi_register(offset, size)) {
        return false;
    }
    *value = ops->read(gicv3_lpi_its(cs->gic), cs, offset, size);
    return true;
}

static inline bool gicv3_lpi_write(GICv3CPUState *cs, hwaddr offset, uint64_t value, unsigned size)
{
    const GICv3LPIOps *ops = gicv3_lpi_ops(cs->gic);

    if (!ops || !gicv3_is_lpi_register(offset, size)) {
        return false;
    }
    ops->write(gicv3_lpi_its(cs->gic), cs, offset, size, value);
    return true;
}

/* QEMU's own ITS sets the bit of a pending table with level 1, and an acknowledgement clears it. */
static inline bool gicv3_lpi_acknowledge(GICv3CPUState *cs, int intid, int level)
{
    const GICv3LPIOps *ops = gicv3_lpi_ops(cs->gic);

    if (ops && !level) {
        ops->acknowledge(gicv3_lpi_its(cs->gic), cs, intid);
    }
    return ops != NULL;
}

#endif
