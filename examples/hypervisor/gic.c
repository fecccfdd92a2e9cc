/*
 * The machine's own interrupt controller: its processors' interface, of which the hypervisor has the
 * physical side, the distributor and the redistributors. The guest's accesses to the frames trap. What
 * isn't of LPIs goes on to the machine, but for the interrupts that the hypervisor needs itself.
 */
#include "hypervisor.h"

/* Of a processor's first 32 interrupts, those of the hypervisor: by software, and of list registers. */
#define OWN (0xFFFFu | 1u << MAINTENANCE)

enum { AFFINITY_ROUTING = 1 << 4, GROUP1_ON = 1 << 1 }; /* of GICD_CTLR */
enum { WAKER = 0x14, SGI_FRAME = FRAME };

static uint32_t distributor_control; /* GICD_CTLR as the guest wrote it */

uint64_t device_read(uint64_t address, uint32_t size)
{
    switch (size) {
    case 1:
        return *(volatile uint8_t *)address;
    case 2:
        return *(volatile uint16_t *)address;
    case 4:
        return *(volatile uint32_t *)address;
    default:
        return *(volatile uint64_t *)address;
    }
}

void device_write(uint64_t address, uint32_t size, uint64_t value)
{
    switch (size) {
    case 1:
        *(volatile uint8_t *)address = (uint8_t)value;
        break;
    case 2:
        *(volatile uint16_t *)address = (uint16_t)value;
        break;
    case 4:
        *(volatile uint32_t *)address = (uint32_t)value;
        break;
    default:
        *(volatile uint64_t *)address = value;
    }
}

static uint64_t frames_of(uint32_t number)
{
    return REDISTRIBUTORS + 2ull * FRAME * number;
}

void gic_start(void)
{
    device_write(DISTRIBUTOR, 4, AFFINITY_ROUTING | GROUP1_ON);
    for (vcpus_count = 1; !(device_read(frames_of(vcpus_count - 1) + 8, 8) & 1 << 4); vcpus_count++)
        if (vcpus_count == MOST_PROCESSORS)
            stop("too many processors", vcpus_count);
}

/* On that processor. */
void gic_start_processor(uint32_t number)
{
    uint64_t frames = frames_of(number);

    device_write(frames + WAKER, 4, 0);
    while (device_read(frames + WAKER, 4) & 4)
        ;
    device_write(frames + SGI_FRAME + 0x80, 4, OWN);  /* group 1 */
    device_write(frames + SGI_FRAME + 0x100, 4, OWN); /* enabled */
    WRITE("S3_4_C12_C9_5", 0xF);  /* ICC_SRE_EL2: system registers, for the guest too */
    BARRIER();
    WRITE("S3_0_C4_C6_0", 0xFF);  /* ICC_PMR_EL1 */
    WRITE("S3_0_C12_C12_4", 2);   /* ICC_CTLR_EL1: an interrupt is dropped and ended in two steps */
    WRITE("S3_0_C12_C12_7", 1);   /* ICC_IGRPEN1_EL1 */
    lists_reset();
}

/* The guest's processor was interrupted: all that is pending for the machine's processor. */
void gic_interrupt(struct vcpu *vcpu)
{
    for (;;) {
        uint32_t intid = (uint32_t)READ("S3_0_C12_C12_0"), device, event; /* ICC_IAR1_EL1 */

        if (intid >= 1020 && intid < FIRST_LPI)
            return;
        WRITE("S3_0_C12_C12_1", intid); /* ICC_EOIR1_EL1 */
        if (intid >= FIRST_LPI) {
            counts.physical++;
            if (physical_message(intid, &device, &event))
                message(device, event);
        } else if (intid < 32 && OWN >> intid & 1) {
            WRITE("S3_0_C12_C11_1", intid); /* ICC_DIR_EL1 */
        } else {
            vcpu->hardware[intid / 32] |= 1u << intid % 32;
        }
        BARRIER();
    }
}

uint8_t gic_priority(const struct vcpu *vcpu, uint32_t intid)
{
    return intid < 32 ? vcpu->priorities[intid] : (uint8_t)device_read(DISTRIBUTOR + 0x400 + intid, 1);
}

bool distributor_is_on(void)
{
    return distributor_control & GROUP1_ON;
}

/* The distributor stays on for the hypervisor; while the guest has it off nothing goes in. */
void distributor_access(struct access *access)
{
    uint64_t offset = access->address - DISTRIBUTOR;

    if (offset < 4 && access->is_write)
        distributor_control = (uint32_t)access->value;
    else if (offset < 4)
        access->value = (device_read(access->address, 4) & ~(uint64_t)GROUP1_ON) |
                        (distributor_control & GROUP1_ON);
    else if (access->is_write)
        device_write(access->address, access->size, access->value);
    else
        access->value = device_read(access->address, access->size);
}

/* The frame of software interrupts and those of the processor itself. */
static void sgi_frame_access(struct vcpu *of, uint64_t offset, struct access *access)
{
    if (offset >= 0x400 && offset < 0x420 && access->size <= 4 && offset + access->size <= 0x420) {
        for (uint32_t i = 0; i < access->size; i++) {
            uint8_t *priority = &of->priorities[offset - 0x400 + i];

            if (access->is_write) {
                *priority = (uint8_t)(access->value >> 8 * i);
                if (!(OWN >> (offset - 0x400 + i) & 1))
                    device_write(access->address + i, 1, *priority);
            } else {
                access->value |= (uint64_t)*priority << 8 * i;
            }
        }
    } else if (!access->is_write) {
        access->value = device_read(access->address, access->size);
    } else if (offset == 0x80) {
        device_write(access->address, 4, access->value | OWN);
    } else if (offset >= 0x100 && offset < 0x400) {
        device_write(access->address, 4, access->value & ~(uint64_t)OWN);
    } else {
        device_write(access->address, access->size, access->value);
    }
}

static bool is_of_lpis(uint64_t offset)
{
    return offset < 4 || (offset & ~7ull) == 0x70 || (offset & ~7ull) == 0x78 || (offset & ~7ull) == 0xA0 ||
           (offset & ~7ull) == 0xB0;
}

/* The first frame of a redistributor: its LPI registers are the library's, and the rest is read only. */
void redistributor_access(struct access *access)
{
    uint32_t number = (uint32_t)(access->address - REDISTRIBUTORS) / (2 * FRAME);
    uint64_t offset = (access->address - REDISTRIBUTORS) % (2 * FRAME);

    if (offset >= SGI_FRAME)
        sgi_frame_access(&vcpus[number], offset - SGI_FRAME, access);
    else if (is_of_lpis(offset))
        lpi_register_access(number, (uint32_t)offset, access);
    else if (!access->is_write)
        access->value = device_read(access->address, access->size);
}

/* The guest wrote ICC_SGI1R_EL1. Processors have affinities 0.0.0.N. */
void send_software_interrupt(struct vcpu *vcpu, uint64_t value)
{
    uint32_t intid = value >> 24 & 15;

    for (uint32_t i = 0; i < vcpus_count; i++) {
        bool is_target = value >> 40 & 1 ? i != vcpu->number : value >> i & 1;

        if (is_target) {
            vcpus[i].sgis |= 1u << intid;
            kick(&vcpus[i]);
        }
    }
}
