/*
 * List registers, by which interrupts go into the guest.
 *
 * Of LPIs at most one is shown as pending: the one that its_best tells. It stays pending in the library
 * until the guest has acknowledged it, which the list register tells as the processor leaves the guest:
 * then it is claimed. As long as one is shown, the processor leaves the guest as soon as no list
 * register is pending (NPIE), so the next LPI doesn't wait.
 *
 * Interrupts of the machine itself (hardware) are acknowledged by the hypervisor, and ended by the
 * guest: the list register has the number of both. Software interrupts are the guest's alone.
 */
#include "hypervisor.h"

#define PENDING (1ull << 62)
#define ACTIVE (1ull << 63)
#define STATE (PENDING | ACTIVE)
#define HARDWARE (1ull << 61)
#define GROUP1 (1ull << 60)

enum { ENABLED = 1, UNDERFLOW = 2, NONE_PENDING = 8 }; /* of ICH_HCR_EL2 */

void lists_reset(void)
{
    WRITE("S3_4_C12_C11_0", 0); /* ICH_HCR_EL2 */
    WRITE("S3_4_C12_C11_7", 0); /* ICH_VMCR_EL2 */
    WRITE("S3_4_C12_C9_0", 0);  /* ICH_AP1R0_EL2 */
    WRITE("S3_4_C12_C8_0", 0);  /* ICH_AP0R0_EL2 */
    BARRIER();
}

/* Leaving the guest. Whoever waits in gather may fold from then on. */
void lists_read(struct vcpu *vcpu)
{
    vcpu->lists[0] = READ("S3_4_C12_C12_0"); /* ICH_LR0_EL2 and those after it */
    vcpu->lists[1] = READ("S3_4_C12_C12_1");
    vcpu->lists[2] = READ("S3_4_C12_C12_2");
    vcpu->lists[3] = READ("S3_4_C12_C12_3");
    WRITE("S3_4_C12_C11_0", 0);
    BARRIER();
    __atomic_store_n(&vcpu->in_guest, false, __ATOMIC_RELEASE);
}

void lists_write(struct vcpu *vcpu)
{
    WRITE("S3_4_C12_C12_0", vcpu->lists[0]);
    WRITE("S3_4_C12_C12_1", vcpu->lists[1]);
    WRITE("S3_4_C12_C12_2", vcpu->lists[2]);
    WRITE("S3_4_C12_C12_3", vcpu->lists[3]);
    WRITE("S3_4_C12_C11_0", vcpu->lists_control);
    BARRIER();
}

static uint64_t *list_of(struct vcpu *vcpu, uint32_t intid)
{
    for (int i = 0; i < LISTS; i++)
        if (vcpu->lists[i] & STATE && (uint32_t)vcpu->lists[i] == intid)
            return &vcpu->lists[i];
    return NULL;
}

/* What the guest did with the LPI that it was shown. Called under the lock, once or more often. */
void lists_fold(struct vcpu *vcpu)
{
    uint32_t intid = vcpu->shown;
    uint64_t *list;

    if (intid == 0)
        return;
    vcpu->shown = 0;
    list = list_of(vcpu, intid);
    if (list && *list & PENDING)
        *list &= ~PENDING;
    else
        claim(vcpu, intid);
}

/* Makes an interrupt pending in a list register of its own, or in the one that has it as active. */
static bool put(struct vcpu *vcpu, uint32_t intid, uint8_t priority, uint64_t more)
{
    uint64_t *list = list_of(vcpu, intid);

    for (int i = 0; !list && i < LISTS; i++)
        if (!(vcpu->lists[i] & STATE))
            *(list = &vcpu->lists[i]) = intid | (uint64_t)priority << 48 | GROUP1 | more;
    if (!list)
        return false;
    *list |= PENDING;
    return true;
}

static bool put_hardware(struct vcpu *vcpu)
{
    for (uint32_t i = 0; i < 32; i++)
        while (vcpu->hardware[i]) {
            uint32_t intid = 32 * i + (uint32_t)__builtin_ctz(vcpu->hardware[i]);

            if (!put(vcpu, intid, gic_priority(vcpu, intid), HARDWARE | (uint64_t)intid << 32))
                return false;
            vcpu->hardware[i] &= vcpu->hardware[i] - 1;
        }
    return true;
}

static bool put_software(struct vcpu *vcpu)
{
    while (vcpu->sgis) {
        uint32_t intid = (uint32_t)__builtin_ctz(vcpu->sgis);

        if (!put(vcpu, intid, gic_priority(vcpu, intid), 0))
            return false;
        vcpu->sgis &= vcpu->sgis - 1;
    }
    return true;
}

/* Before the guest is entered: what is pending goes in, as far as there is room. */
void lists_fill(struct vcpu *vcpu)
{
    struct its_ack_out first;
    bool is_all;

    vcpu->lists_control = ENABLED;
    if (!distributor_is_on())
        return;
    first = best(vcpu);
    is_all = first.intid == 0 || put(vcpu, first.intid, (uint8_t)first.priority, 0);
    if (first.intid && is_all) {
        vcpu->shown = first.intid;
        vcpu->lists_control |= NONE_PENDING;
    }
    is_all &= put_hardware(vcpu);
    is_all &= put_software(vcpu);
    if (!is_all)
        vcpu->lists_control |= UNDERFLOW;
}
