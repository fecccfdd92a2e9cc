/*
 * The device in Debian's own qemu-system-aarch64, by LD_PRELOAD, for trying it without building QEMU:
 * on x86-64, and in the very version whose headers it was compiled with (run.sh preload). What wire.py
 * puts into QEMU's files comes about here by jumps at the begin of functions, while ITS_DEVICE names
 * the device; and the ends of watch_cpu.c and written_pages.c are reached in the same way. QEMU holds
 * its big lock as it calls these functions, so that none is called while it is put back.
 *
 * SPDX-License-Identifier: MIT OR Apache-2.0
 */
#include "qemu/osdep.h"
#include <sys/mman.h>
#include "exec/memory.h"
#include "hw/qdev-core.h"
#include "hw/intc/arm_gicv3_its_common.h"
#include "hw/intc/arm_gicv3_lpi_ops.h"

/* Of watch.c, watch_cpu.c and written_pages.c. */
extern typeof(gicv3_its_init_mmio) __real_gicv3_its_init_mmio, __wrap_gicv3_its_init_mmio;
void define_arm_cp_regs_with_opaque_len(void *cpu, const void *registers, void *opaque, size_t len);
extern typeof(define_arm_cp_regs_with_opaque_len) __real_define_arm_cp_regs_with_opaque_len,
    __wrap_define_arm_cp_regs_with_opaque_len;
extern typeof(memory_global_after_dirty_log_sync) __real_memory_global_after_dirty_log_sync,
    __wrap_memory_global_after_dirty_log_sync;

enum { JUMP = 14 };

/* A function that is left for another at its first instruction. */
typedef struct Entry {
    uint8_t *at;
    uint8_t own[JUMP];
    uint8_t jump[JUMP];
} Entry;

const GICv3LPIOps *gicv3_preloaded_ops;
DeviceState *gicv3_preloaded_its;

static Entry entries[16];
static int entries_len;

static Entry *leave(void *function, void *target)
{
    Entry *entry = &entries[entries_len++];
    uintptr_t page = (uintptr_t)function & -4096ul;

    if (mprotect((void *)page, 8192, PROT_READ | PROT_WRITE | PROT_EXEC)) {
        abort();
    }
    entry->at = function;
    memcpy(entry->own, function, JUMP);
    memcpy(entry->jump, "\xff\x25\0\0\0\0", 6);          /* jmp *0(%rip) */
    memcpy(entry->jump + 6, &target, sizeof(target));
    memcpy(function, entry->jump, JUMP);
    return entry;
}

static Entry *read_entry, *write_entry, *new_entry, *mmio_entry, *registers_entry, *pages_entry;

#define AS_IT_WAS(entry, call)                    \
    do {                                          \
        memcpy((entry)->at, (entry)->own, JUMP);  \
        call;                                     \
        memcpy((entry)->at, (entry)->jump, JUMP); \
    } while (0)

static GICv3CPUState *processor_of(GICv3RedistRegion *region, hwaddr *offset)
{
    hwaddr frames = gicv3_redist_size(region->gic);
    int vcpu = region->cpuidx + *offset / frames;

    *offset %= frames;
    return &region->gic->cpu[vcpu];
}

static MemTxResult redist_read(void *opaque, hwaddr offset, uint64_t *value, unsigned size,
                               MemTxAttrs attrs)
{
    hwaddr in = offset;
    GICv3CPUState *cs = processor_of(opaque, &in);
    MemTxResult result = MEMTX_OK;

    if (!gicv3_lpi_read(cs, in, value, size)) {
        AS_IT_WAS(read_entry, result = gicv3_redist_read(opaque, offset, value, size, attrs));
    }
    return result;
}

static MemTxResult redist_write(void *opaque, hwaddr offset, uint64_t value, unsigned size,
                                MemTxAttrs attrs)
{
    hwaddr in = offset;
    GICv3CPUState *cs = processor_of(opaque, &in);
    MemTxResult result = MEMTX_OK;

    if (!gicv3_lpi_write(cs, in, value, size)) {
        AS_IT_WAS(write_entry, result = gicv3_redist_write(opaque, offset, value, size, attrs));
    }
    return result;
}

static void lpi_pending(GICv3CPUState *cs, int intid, int level)
{
    gicv3_lpi_acknowledge(cs, intid, level);
}

static void update_lpi_only(GICv3CPUState *cs)
{
}

static DeviceState *new_device(const char *name)
{
    DeviceState *made;

    AS_IT_WAS(new_entry,
              made = qdev_new(strcmp(name, "arm-gicv3-its") ? name : getenv("ITS_DEVICE")));
    return made;
}

void __real_gicv3_its_init_mmio(GICv3ITSState *its, const MemoryRegionOps *control,
                                const MemoryRegionOps *translation)
{
    AS_IT_WAS(mmio_entry, gicv3_its_init_mmio(its, control, translation));
}

void __real_define_arm_cp_regs_with_opaque_len(void *cpu, const void *registers, void *opaque,
                                               size_t len)
{
    AS_IT_WAS(registers_entry, define_arm_cp_regs_with_opaque_len(cpu, registers, opaque, len));
}

void __real_memory_global_after_dirty_log_sync(void)
{
    AS_IT_WAS(pages_entry, memory_global_after_dirty_log_sync());
}

static void __attribute__((constructor)) start(void)
{
    unsetenv("LD_PRELOAD");         /* what QEMU starts has none of its functions */
    pages_entry = leave(memory_global_after_dirty_log_sync,
                        __wrap_memory_global_after_dirty_log_sync);
    if (getenv("ITS_TIMES")) {
        mmio_entry = leave(gicv3_its_init_mmio, __wrap_gicv3_its_init_mmio);
        registers_entry = leave(define_arm_cp_regs_with_opaque_len,
                                __wrap_define_arm_cp_regs_with_opaque_len);
    }
    if (getenv("ITS_DEVICE")) {
        read_entry = leave(gicv3_redist_read, redist_read);
        write_entry = leave(gicv3_redist_write, redist_write);
        leave(gicv3_redist_lpi_pending, lpi_pending);
        leave(gicv3_redist_update_lpi_only, update_lpi_only);
        new_entry = leave(qdev_new, new_device);
    }
}
