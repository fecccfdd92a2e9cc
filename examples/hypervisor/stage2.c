/*
 * What the guest sees of the machine, by the second stage of translation. Each address is itself. RAM
 * and the devices that the guest drives are there; what isn't there traps: the interrupt controller,
 * and the hypervisor's own memory.
 */
#include "hypervisor.h"

enum {
    BLOCK = 0x200000,
    MEMORY = 0x7FD,       /* a block: read and written, inner shareable, normal memory */
    TABLE = 3,
};
#define DEVICE 0x00400000000004C5u /* a block: read and written, device memory, not executed */

static uint64_t gibibytes[512] __attribute__((aligned(4096)));
static uint64_t blocks[2][512] __attribute__((aligned(4096)));

/* From one address to another, both whole blocks, in the first 2 GiB. */
static void map(uint64_t from, uint64_t to, uint64_t kind)
{
    for (uint64_t at = from; at < to; at += BLOCK)
        blocks[at >> 30][at >> 21 & 511] = at | kind;
}

void stage2_make(void)
{
    for (int i = 0; i < 2; i++)
        gibibytes[i] = (uint64_t)blocks[i] | TABLE;
    map(0x09000000, 0x09200000, DEVICE); /* serial line, clock, GPIO */
    map(0x0A000000, 0x0A200000, DEVICE); /* virtio-mmio */
    map(0x10000000, 0x40000000, DEVICE); /* PCI */
    map(RAM, (uint64_t)RAM + RAM_LENGTH, MEMORY);
    BARRIER();
}

/* On this processor, from now on. */
void stage2_use(void)
{
    WRITE("vtcr_el2", 0x80023560); /* 4 GiB from level 1, 4 KiB, write-back, inner shareable, 40 bits */
    WRITE("vttbr_el2", (uint64_t)gibibytes);
    __asm__ volatile("dsb sy; isb; tlbi vmalls12e1; dsb sy; isb" : : : "memory");
}

bool is_guest_ram(uint64_t address, uint64_t length)
{
    return address >= RAM && length <= RAM_LENGTH && address - RAM <= RAM_LENGTH - length;
}
