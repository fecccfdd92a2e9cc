/*
 * Pages that a guest writes while it is migrated, on both translators. Where QEMU translates a guest's
 * code, a processor's TLB says which pages have been marked as written. QEMU 7.2 clears such marks by
 * the word before pages are sent, and leaves the TLBs as they were, so a page that is written again
 * isn't marked again, and what was written isn't sent. Here the TLBs are emptied after the marks, and
 * before QEMU waits for its processors, as later QEMUs do for these pages (since 9.0).
 * QEMU compiles this file for the target, as it does the TLB.
 *
 * SPDX-License-Identifier: MIT OR Apache-2.0
 */
#include "qemu/osdep.h"
#include "cpu.h"
#include "exec/exec-all.h"
#include "exec/memory.h"

extern typeof(memory_global_after_dirty_log_sync) __real_memory_global_after_dirty_log_sync,
    __wrap_memory_global_after_dirty_log_sync;

void __wrap_memory_global_after_dirty_log_sync(void)
{
    CPUState *cpu;

    CPU_FOREACH(cpu) {
        tlb_flush(cpu);
    }
    __real_memory_global_after_dirty_log_sync();
}
