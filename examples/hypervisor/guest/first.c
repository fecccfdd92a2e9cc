/*
 * The first guest: it turns on its LPIs, maps events 1 to 3 of a device by the ITS's queue, signals them
 * by writes of GITS_TRANSLATER, and takes the interrupts. The hypervisor knows its writes as those of
 * device 0xffff.
 */
#include "guest.h"

enum {
    CONFIG = 0x42000000, /* tables of the guest, in its zero memory */
    PENDING = 0x42010000,
    DEVICES = 0x42020000,
    COLLECTIONS = 0x42030000,
    QUEUE = 0x42040000,
    TRANSLATIONS = 0x42050000,
};

static volatile uint32_t taken;

static void command(uint64_t a, uint64_t b, uint64_t c)
{
    uint64_t at = AT8(ITS + 0x88), words[4] = {a, b, c, 0};

    for (int i = 0; i < 4; i++)
        AT8(QUEUE + at + 8 * (uint64_t)i) = words[i];
    AT8(ITS + 0x88) = at + 32;
    while (AT8(ITS + 0x90) != at + 32)
        ;
}

void interrupted(void)
{
    uint32_t intid = (uint32_t)READ("S3_0_C12_C12_0"); /* ICC_IAR1_EL1 */

    __asm__ volatile("dsb sy; isb");
    text("guest: took LPI "), number(intid);
    text(" of priority "), number((uint32_t)READ("S3_0_C12_C11_3")), text("\r\n"); /* ICC_RPR_EL1 */
    WRITE("S3_0_C12_C12_1", intid); /* ICC_EOIR1_EL1 */
    taken++;
}

static void lpis_on(void)
{
    static const uint8_t configuration[3] = {0xA1, 0xA1, 0x41}; /* priorities 0xa0, 0xa0 and 0x40, enabled */

    for (int i = 0; i < 3; i++)
        *(volatile uint8_t *)(uintptr_t)(CONFIG + LPI - 8192 + i) = configuration[i];
    AT8(REDISTRIBUTOR + 0x70) = CONFIG | 15;
    AT8(REDISTRIBUTOR + 0x78) = PENDING | 1ull << 62;
    AT4(REDISTRIBUTOR) = 1;
    interface_on(0xF0);
}

static void map_events(void)
{
    AT8(ITS + 0x100) = VALID | 1ull << 62 | DEVICES | 2ull << 8; /* GITS_BASER0, two levels */
    AT8(DEVICES + 8 * (DEVICE / 8192)) = VALID | 0x42060000;     /* its page */
    AT8(ITS + 0x108) = VALID | COLLECTIONS | 2ull << 8;
    AT8(ITS + 0x80) = VALID | QUEUE | 15;
    AT4(ITS) = 1;
    command(0x8 | (uint64_t)DEVICE << 32, 3, VALID | TRANSLATIONS); /* MAPD: 4 bits of EventID */
    command(0x9, 0, VALID | 5);                                     /* MAPC: collection 5 to processor 0 */
    for (uint32_t event = 1; event < 4; event++)
        command(0xA | (uint64_t)DEVICE << 32, event | (uint64_t)(LPI + event - 1) << 32, 5); /* MAPTI */
    command(0x5, 0, 0);                                             /* SYNC */
}

static void wait_for(uint32_t count)
{
    while (taken < count)
        __asm__ volatile("wfi");
}

void main(void)
{
    text("guest: at EL1, GITS_PIDR2 "), number(AT4(ITS + 0xFFE8)), text("\r\n");
    lpis_on();
    map_events();
    text("guest: event 1\r\n");
    __asm__ volatile("msr daifclr, #2");
    AT4(TRANSLATER) = 1;
    wait_for(1);
    text("guest: events 1, 2 and 3 with interrupts masked\r\n");
    __asm__ volatile("msr daifset, #2");
    for (uint32_t event = 1; event < 4; event++)
        AT4(TRANSLATER) = event;
    __asm__ volatile("msr daifclr, #2");
    wait_for(4);
    text("guest: event 4, which isn't mapped\r\n");
    AT4(TRANSLATER) = 4;
    text("guest: the end\r\n");
}
