/*
 * The device: its control frame, its reset and what it is made from.
 *
 * SPDX-License-Identifier: MIT OR Apache-2.0
 */
#include "qemu/osdep.h"
#include "qemu/error-report.h"
#include "qemu/main-loop.h"
#include "qemu/module.h"
#include "qapi/error.h"
#include "hw/intc/intc.h"
#include "migration/vmstate.h"
#include "bacciledru.h"
#include "hw/intc/trace.h"

/* ---- the control frame; that of GITS_TRANSLATER is QEMU's, and calls send_msi ---- */

static MemTxResult control_read(void *opaque, hwaddr offset, uint64_t *value, unsigned size,
                                MemTxAttrs attrs)
{
    BacciledruIts *s = opaque;
    hwaddr id = offset - GITS_IDREGS;      /* GITS_PIDR2, at 0x18, is the library's */

    if (offset == GITS_CREADR) {
        bacciledru_take_waited(s);
    }
    *value = id < 0x30 && id != 0x18 ? gicv3_idreg(s->gic, id, GICV3_PIDR0_ITS) :
             bacciledru_register(s, offset, size);
    trace_bacciledru_read(offset, *value, size);
    return MEMTX_OK;
}

static MemTxResult control_write(void *opaque, hwaddr offset, uint64_t value, unsigned size,
                                 MemTxAttrs attrs)
{
    BacciledruIts *s = opaque;
    int64_t since = get_clock();

    trace_bacciledru_write(offset, value, size);
    bacciledru_done(s, "its_write_register",
                    its_write_register(s->handle, 0, offset, size, value));
    if (offset == GITS_CTLR || (offset & ~7ULL) == GITS_CWRITER) {
        bacciledru_take_commands(s);
    }
    s->counters.longest_write = MAX(s->counters.longest_write, get_clock() - since);
    return MEMTX_OK;
}

static const MemoryRegionOps control_ops = {
    .read_with_attrs = control_read,
    .write_with_attrs = control_write,
    .valid = { .min_access_size = 4, .max_access_size = 8 },
    .impl = { .min_access_size = 4, .max_access_size = 8 },
    .endianness = DEVICE_LITTLE_ENDIAN,
};

/* ---- the device ---- */

static void bacciledru_reset(DeviceState *dev)
{
    BacciledruIts *s = BACCILEDRU_ITS(dev);
    Error *error = NULL;

    qemu_bh_cancel(s->queue);
    timer_del(s->again);
    error_free(s->unsaved);
    s->unsaved = NULL;
    memset(&s->counters, 0, sizeof(s->counters));
    if (!bacciledru_make(s, FROM_NOTHING, &error)) {
        error_report_err(error);
    }
    memset(&s->before, 0, sizeof(s->before));
}

static void bacciledru_state(void *opaque, bool running, RunState state)
{
    BacciledruIts *s = opaque;

    if (running) {
        qemu_bh_schedule(s->queue);
    } else if (s->made) {
        bacciledru_save(s);
    }
}

static void bacciledru_realize(DeviceState *dev, Error **errp)
{
    BacciledruIts *s = BACCILEDRU_ITS(dev);

    if (!s->gic || !s->gic->lpi_enable) {
        error_setg(errp, TYPE_BACCILEDRU_ITS " needs a GIC with LPIs");
    } else if (s->gic->revision != 3) {
        error_setg(errp, TYPE_BACCILEDRU_ITS " is for GICv3, and has no LPIs of GICv4");
    } else if (s->gic->num_cpu > MOST) {
        error_setg(errp, TYPE_BACCILEDRU_ITS " is for at most %d processors", MOST);
    } else if (s->gic->itslist->len > 0) {
        error_setg(errp, TYPE_BACCILEDRU_ITS " is the only ITS of its GIC");
    } else {
        s->parent_obj.gicv3 = s->gic;
        gicv3_lpi_ops(s->gic) = &bacciledru_lpi_ops;
        gicv3_lpi_its(s->gic) = dev;
        gicv3_add_its(s->gic, dev);
        gicv3_its_init_mmio(&s->parent_obj, &control_ops, NULL);
        bacciledru_queue_init(s);
        bacciledru_listen(s);
        s->changes = qemu_add_vm_change_state_handler(bacciledru_state, s);
    }
}

static void bacciledru_init(Object *object)
{
    static const struct its_handle none = ITS_NO_MACHINE;

    BACCILEDRU_ITS(object)->handle = g_memdup2(&none, sizeof(none));
}

static void bacciledru_finalize(Object *object)
{
    BacciledruIts *s = BACCILEDRU_ITS(object);

    if (s->changes) {
        qemu_del_vm_change_state_handler(s->changes);
        memory_listener_unregister(&s->listener);
        qemu_bh_delete(s->queue);
        timer_free(s->again);
    }
    if (s->made) {
        its_free(s->handle);
    }
    g_free(s->handle);
    error_free(s->unsaved);
}

/* Not that of QEMU's own ITS, whose maps stand in guest memory in a format of its own. */
static const VMStateDescription vmstate_bacciledru = {
    .name = "arm_gicv3_its_bacciledru",
    .version_id = 1,
    .minimum_version_id = 1,
    .pre_save = bacciledru_pre_save,
    .post_load = bacciledru_post_load,
    .priority = MIG_PRI_GICV3_ITS,
    .fields = (VMStateField[]) {
        VMSTATE_UINT32(parent_obj.ctlr, BacciledruIts),
        VMSTATE_UINT64(parent_obj.cbaser, BacciledruIts),
        VMSTATE_UINT64(parent_obj.cwriter, BacciledruIts),
        VMSTATE_UINT64(parent_obj.creadr, BacciledruIts),
        VMSTATE_UINT64_SUB_ARRAY(parent_obj.baser, BacciledruIts, 0, 2),
        VMSTATE_END_OF_LIST()
    },
};

static OF_PROPERTIES Property bacciledru_properties[] = {
    DEFINE_PROP_LINK("parent-gicv3", BacciledruIts, gic, "arm-gicv3", GICv3State *),
    PROPERTIES_END
};

static void bacciledru_class_init(ObjectClass *class, OF_CLASS void *data)
{
    DeviceClass *dev = DEVICE_CLASS(class);

    dev->desc = "ARM GICv3 ITS, by the Bacciledru library";
    dev->realize = bacciledru_realize;
    dev->vmsd = &vmstate_bacciledru;
    set_reset(dev, bacciledru_reset);
    device_class_set_props(dev, bacciledru_properties);
    ARM_GICV3_ITS_COMMON_CLASS(class)->send_msi = bacciledru_send_msi;
    bacciledru_info_init(class);
}

static const TypeInfo bacciledru_types[] = { {
    .name = TYPE_BACCILEDRU_ITS,
    .parent = TYPE_ARM_GICV3_ITS_COMMON,
    .instance_size = sizeof(BacciledruIts),
    .instance_init = bacciledru_init,
    .instance_finalize = bacciledru_finalize,
    .class_init = bacciledru_class_init,
    .interfaces = (OF_CLASS InterfaceInfo[]) { { TYPE_INTERRUPT_STATS_PROVIDER }, { } },
} };

DEFINE_TYPES(bacciledru_types)
