/*
 * A hypervisor of one guest, which gets its ITS out of the library. Processor 0 makes everything and
 * enters the guest; the guest turns on the others.
 */
#include "hypervisor.h"

/* HCR_EL2: the guest is AArch64 and has a second stage; interrupts, errors and SMC come here. */
#define GUEST_CONTROL (1ull << 31 | 1 << 19 | 1 << 5 | 1 << 4 | 1 << 3 | 1 << 1 | 1 << 0)

struct vcpu vcpus[MOST_PROCESSORS];
uint32_t vcpus_count;

static uint8_t stacks[MOST_PROCESSORS][0x10000] __attribute__((aligned(16)));

/* The state that a processor of the guest starts with, on that processor. */
static void enter(struct vcpu *vcpu)
{
    WRITE("hcr_el2", GUEST_CONTROL);
    WRITE("vpidr_el2", READ("midr_el1"));
    WRITE("vmpidr_el2", READ("mpidr_el1"));
    WRITE("cnthctl_el2", 3); /* both timers are the guest's */
    WRITE("cntvoff_el2", 0);
    WRITE("hstr_el2", 0);
    WRITE("mdcr_el2", READ("mdcr_el2") & 31);
    WRITE("sctlr_el1", 0x30D00800);
    WRITE("cntv_ctl_el0", 0);
    stage2_use();
    gic_start_processor(vcpu->number);
    vcpu->pstate = 0x3C5; /* EL1 with its own stack, all masked */
    take_lock();
    lists_fill(vcpu);
    vcpu->in_guest = true;
    give_lock();
    lists_write(vcpu);
    enter_guest(vcpu);
}

void secondary_main(struct vcpu *vcpu)
{
    enter(vcpu);
}

void main(void)
{
    gic_start();
    for (uint32_t i = 0; i < vcpus_count; i++) {
        vcpus[i].number = i;
        vcpus[i].stack = (uint64_t)stacks[i] + sizeof stacks[i];
    }
    stage2_make();
    translator_start();
    gic_start_processor(0);
    physical_its_start();
    print("hypervisor: at EL%u, processors %u\n", READ("CurrentEL") >> 2, (uint64_t)vcpus_count);
    vcpus[0].pc = GUEST_ENTRY;
    vcpus[0].x[0] = GUEST_TREE;
    enter(&vcpus[0]);
}
