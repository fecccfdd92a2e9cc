/*
 * One lock, under which the hypervisor works and the library is called: one call at a time.
 *
 * A list register that has an LPI is a copy of what the library says, and while its virtual processor
 * is in the guest the copy alone knows whether it was acknowledged. So whoever makes a call that may
 * change what is pending at a processor first gathers it, if it is shown an LPI: it leaves the guest,
 * and what it acknowledged is told to the library. One that is shown none is kicked afterwards. Either
 * asks the library anew as it enters.
 */
#include "hypervisor.h"

static uint32_t next_ticket, served;

/* A QEMU with one thread for all processors goes on to the next one here. */
static void wait_a_little(void)
{
    __asm__ volatile("yield" : : : "memory");
}

void take_lock(void)
{
    uint32_t mine = __atomic_fetch_add(&next_ticket, 1, __ATOMIC_RELAXED);

    while (__atomic_load_n(&served, __ATOMIC_ACQUIRE) != mine)
        wait_a_little();
}

void give_lock(void)
{
    __atomic_store_n(&served, served + 1, __ATOMIC_RELEASE);
}

static bool is_in_guest(const struct vcpu *vcpu)
{
    return __atomic_load_n(&vcpu->in_guest, __ATOMIC_ACQUIRE);
}

/* The processor leaves the guest soon, if it is there. */
void kick(struct vcpu *vcpu)
{
    if (is_in_guest(vcpu)) {
        counts.kicks++;
        BARRIER();
        WRITE("S3_0_C12_C11_5", 1u << vcpu->number); /* ICC_SGI1R_EL1: interrupt 0 */
        BARRIER();
    }
}

/* When this returns the library knows what each processor whose bit is set has acknowledged. */
void gather(uint32_t which)
{
    for (uint32_t i = 0; i < vcpus_count; i++)
        if (which >> i & 1 && vcpus[i].shown)
            kick(&vcpus[i]);
    for (uint32_t i = 0; i < vcpus_count; i++) {
        if (!(which >> i & 1) || !vcpus[i].shown)
            continue;
        while (is_in_guest(&vcpus[i]))
            wait_a_little();
        lists_fold(&vcpus[i]);
    }
}

/* Each processor whose bit is set asks the library again. */
void kick_all(uint32_t which)
{
    for (uint32_t i = 0; i < vcpus_count; i++)
        if (which >> i & 1)
            kick(&vcpus[i]);
}
