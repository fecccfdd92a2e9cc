/*
 * The times of acknowledgements, of both translators: a processor's read of ICC_IAR1_EL1 that gets an
 * LPI (watch.c). QEMU compiles this file for the target, as it does the processors' interface.
 *
 * SPDX-License-Identifier: MIT OR Apache-2.0
 */
#include "qemu/osdep.h"
#include "qemu/timer.h"
#include "cpu.h"
#include "cpregs.h"

extern typeof(define_arm_cp_regs_with_opaque_len) __real_define_arm_cp_regs_with_opaque_len,
    __wrap_define_arm_cp_regs_with_opaque_len;
void its_watch_acknowledgement(int64_t since);

static CPReadFn *acknowledge;

static uint64_t timed_acknowledge(CPUARMState *env, const ARMCPRegInfo *reg)
{
    int64_t since = get_clock();
    uint64_t intid = acknowledge(env, reg);

    if (intid >= 8192) {
        its_watch_acknowledgement(since);
    }
    return intid;
}

void __wrap_define_arm_cp_regs_with_opaque_len(ARMCPU *cpu, const ARMCPRegInfo *regs, void *opaque,
                                               size_t len)
{
    g_autofree ARMCPRegInfo *copy = g_memdup2(regs, len * sizeof(*regs));

    for (size_t i = 0; getenv("ITS_TIMES") && i < len; i++) {
        if (!strcmp(copy[i].name, "ICC_IAR1_EL1")) {
            acknowledge = copy[i].readfn;
            copy[i].readfn = timed_acknowledge;
        }
    }
    __real_define_arm_cp_regs_with_opaque_len(cpu, copy, opaque, len);
}
