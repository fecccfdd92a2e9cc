/* The guest's calls for power (PSCI), which it makes by HVC or SMC. The machine takes them by SMC. */
#include "hypervisor.h"

enum {
    VERSION = 0x84000000,
    CPU_OFF = 0x84000002,
    MIGRATE_INFO_TYPE = 0x84000006,
    SYSTEM_OFF = 0x84000008,
    SYSTEM_RESET = 0x84000009,
    FEATURES = 0x8400000A,
    OFF = 1, /* what AFFINITY_INFO answers */
};
#define CPU_ON 0xC4000003u
#define AFFINITY_INFO 0xC4000004u
#define NOT_SUPPORTED ((uint64_t)-1)
#define INVALID ((uint64_t)-2)
#define ALREADY_ON ((uint64_t)-4)

void tell_counts(void)
{
    print("hypervisor: %u exits, %u accesses of frames, %u commands, %u refused\n", counts.exits, counts.accesses,
          counts.commands, counts.refused);
    print("hypervisor: %u messages, %u of them from devices, %u delivered, %u LPIs acknowledged, %u kicks\n",
          counts.messages, counts.physical, counts.delivered, counts.claimed, counts.kicks);
    print("hypervisor: %u bytes of heap\n", (uint64_t)heap_used);
}

/* A processor that is off has an empty interface, and begins with the guest's two words. */
static uint64_t turn_on(uint64_t affinity, uint64_t entry, uint64_t context)
{
    struct vcpu *vcpu = &vcpus[affinity];

    if (affinity >= vcpus_count)
        return INVALID;
    if (smc(AFFINITY_INFO, affinity, 0, 0) != OFF)
        return ALREADY_ON;
    for (int i = 0; i < LISTS; i++)
        vcpu->lists[i] = 0;
    for (int i = 0; i < 32; i++)
        vcpu->hardware[i] = 0;
    vcpu->sgis = 0;
    vcpu->pc = entry;
    vcpu->x[0] = context;
    return smc(CPU_ON, affinity, (uint64_t)secondary_start, (uint64_t)vcpu);
}

static bool is_known(uint32_t function)
{
    return function == VERSION || function == CPU_OFF || function == SYSTEM_OFF || function == SYSTEM_RESET ||
           function == FEATURES || function == MIGRATE_INFO_TYPE || function == CPU_ON || function == AFFINITY_INFO;
}

void power_call(struct vcpu *vcpu)
{
    uint64_t *x = vcpu->x;

    switch ((uint32_t)x[0]) {
    case VERSION:
        x[0] = 0x10000;
        break;
    case FEATURES:
        x[0] = is_known((uint32_t)x[1]) ? 0 : NOT_SUPPORTED;
        break;
    case MIGRATE_INFO_TYPE:
        x[0] = 2; /* nothing to migrate */
        break;
    case CPU_ON:
        x[0] = turn_on(x[1], x[2], x[3]);
        break;
    case AFFINITY_INFO:
        x[0] = x[1] < vcpus_count ? smc(AFFINITY_INFO, x[1], 0, 0) : INVALID;
        break;
    case CPU_OFF:
        give_lock();
        smc(CPU_OFF, 0, 0, 0);
        stop("a processor stays on", vcpu->number);
    case SYSTEM_OFF:
    case SYSTEM_RESET:
        tell_counts();
        smc(SYSTEM_OFF, 0, 0, 0);
        stop("the machine stays on", 0);
    default:
        x[0] = NOT_SUPPORTED;
    }
}
