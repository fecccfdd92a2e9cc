/* Where the guest is left for the hypervisor: what happened, and what is done. */
#include "hypervisor.h"

enum { HVC = 0x16, SMC = 0x17, SYSTEM_REGISTER = 0x18, DATA_ABORT = 0x24 }; /* ESR_EL2.EC */

struct counts counts;

static void dispatch(struct vcpu *vcpu, struct access *access)
{
    uint64_t address = access->address;

    if (address >= DISTRIBUTOR && address < DISTRIBUTOR + FRAME)
        distributor_access(access);
    else if (address >= ITS_CONTROL && address < REDISTRIBUTORS)
        translator_access(access);
    else if (address >= REDISTRIBUTORS && address < REDISTRIBUTORS + 2ull * FRAME * vcpus_count)
        redistributor_access(access);
    else {
        print("hypervisor: processor %u at 0x%x\n", (uint64_t)vcpu->number, vcpu->pc);
        stop("the guest has nothing at", address);
    }
}

static uint64_t extended(uint64_t value, uint32_t size, bool is_signed, bool is_64)
{
    uint32_t unused = 64 - 8 * size;

    if (size < 8)
        value = is_signed ? (uint64_t)((int64_t)(value << unused) >> unused) : value << unused >> unused;
    return is_64 ? value : (uint32_t)value;
}

/* A load or store of what isn't mapped. */
static void data_abort(struct vcpu *vcpu, uint64_t syndrome)
{
    uint32_t target = syndrome >> 16 & 31;
    struct access access = {
        .address = (READ("hpfar_el2") & ~15ull) << 8 | (READ("far_el2") & 0xFFF),
        .size = 1u << (syndrome >> 22 & 3),
        .is_write = syndrome >> 6 & 1,
    };

    if (!(syndrome >> 24 & 1)) {
        print("hypervisor: processor %u at 0x%x: 0x%x\n", (uint64_t)vcpu->number, vcpu->pc, access.address);
        stop("an access of which the syndrome doesn't tell the register", syndrome);
    }
    counts.accesses++;
    if (access.is_write && target != 31)
        access.value = extended(vcpu->x[target], access.size, false, true);
    dispatch(vcpu, &access);
    if (!access.is_write && target != 31)
        vcpu->x[target] = extended(access.value, access.size, syndrome >> 21 & 1, syndrome >> 15 & 1);
    vcpu->pc += 4;
}

/* Of system registers only ICC_SGI1R_EL1 is known: op0 3, op1 0, CRn 12, CRm 11, op2 5. */
static void system_register(struct vcpu *vcpu, uint64_t syndrome)
{
    uint32_t from = syndrome >> 5 & 31;

    if ((syndrome & 0x3FFC1F) != (3 << 20 | 5 << 17 | 12 << 10 | 11 << 1))
        stop("a system register traps", syndrome);
    send_software_interrupt(vcpu, from == 31 ? 0 : vcpu->x[from]);
    vcpu->pc += 4;
}

static void exception(struct vcpu *vcpu)
{
    uint64_t syndrome = READ("esr_el2");

    switch (syndrome >> 26) {
    case DATA_ABORT:
        data_abort(vcpu, syndrome);
        break;
    case SMC:
        vcpu->pc += 4;
        power_call(vcpu);
        break;
    case HVC:
        power_call(vcpu);
        break;
    case SYSTEM_REGISTER:
        system_register(vcpu, syndrome);
        break;
    default:
        print("hypervisor: processor %u at 0x%x\n", (uint64_t)vcpu->number, vcpu->pc);
        stop("an exception of the guest", syndrome);
    }
}

/* Called with the guest's registers in its struct vcpu, and its list registers in the machine. */
void guest_exited(struct vcpu *vcpu, uint64_t kind)
{
    lists_read(vcpu);
    take_lock();
    counts.exits++;
    lists_fold(vcpu);
    if (kind == 0)
        exception(vcpu);
    else if (kind == 1)
        gic_interrupt(vcpu);
    else
        stop("the guest had an error of the machine", READ("esr_el2"));
    lists_fill(vcpu);
    vcpu->in_guest = true;
    give_lock();
    lists_write(vcpu);
}

void own_trap(uint64_t kind, uint64_t syndrome, uint64_t pc, uint64_t address)
{
    print("hypervisor: its own exception %u: 0x%x at 0x%x, address 0x%x\n", kind, syndrome, pc, address);
    stop("no way back from", kind);
}
