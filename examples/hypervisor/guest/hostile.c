/*
 * A guest that means no good: for so many rounds it writes anything to the registers of the ITS and of
 * its LPIs, puts any commands into the queue, moves queue and tables about, inside its memory and
 * outside, and writes to them meanwhile. It takes what interrupts come.
 */
#include "guest.h"

enum { ROUNDS = 20000, TABLES = 0x44000000 };

static volatile uint32_t taken;
static uint64_t state = SEED * 0x9E3779B97F4A7C15 + 1;

static uint64_t any(void)
{
    state ^= state << 13;
    state ^= state >> 7;
    state ^= state << 17;
    return state;
}

static uint64_t below(uint64_t bound)
{
    return (any() >> 11) % bound;
}

void interrupted(void)
{
    uint32_t intid = (uint32_t)READ("S3_0_C12_C12_0"); /* ICC_IAR1_EL1 */

    __asm__ volatile("dsb sy; isb");
    WRITE("S3_0_C12_C12_1", intid); /* ICC_EOIR1_EL1 */
    taken++;
}

/* A page of 64 KiB: most often of a few, else anywhere, also where there is no memory. */
static uint64_t address(void)
{
    switch (below(16)) {
    case 0:
        return any() & 0x000FFFFFFFFF0000;
    case 1:
        return 0x42000000 + below(0x2000) * 0x10000;
    default:
        return TABLES + below(8) * 0x10000;
    }
}

static uint64_t device(void)
{
    return below(2) ? DEVICE : below(8) ? below(4) + 0xFFFC : below(1 << 17);
}

static uint64_t event(void)
{
    return below(16) ? below(4) : any() & 0xFFFFFFFF;
}

static uint64_t lpi(void)
{
    return below(8) ? LPI + below(8) : any() & 0xFFFFFFFF;
}

/* One of the commands, or none. */
static void put_command(uint64_t at)
{
    static const uint8_t codes[] = {0x1, 0x3, 0x4, 0x5, 0x8, 0x9, 0x9, 0xA, 0xA, 0xA, 0xA, 0xA,
                                    0xB, 0xC, 0xD, 0xE, 0xF, 0x77};
    uint64_t code = codes[below(sizeof codes)];

    AT8(at) = code | device() << 32;
    AT8(at + 8) = code == 0x8 ? 1 + below(17) : event() | lpi() << 32;
    AT8(at + 16) = code == 0x8 || code == 0x9 ? (below(16) ? VALID : 0) | (code == 0x9 ? below(3) : address())
                                              : below(3);
    AT8(at + 24) = below(8) ? 0 : any();
}

static void put_commands(void)
{
    uint64_t queue = AT8(ITS + 0x80) & 0x000FFFFFFFFFF000, at = AT8(ITS + 0x88) & 0xFFFE0;

    for (uint64_t count = below(6); count--; at = (at + 32) & 0xFFF)
        if (queue >= TABLES && queue < TABLES + 0x80000)
            put_command(queue + at);
    AT8(ITS + 0x88) = below(64) ? at : any();
}

static void write_a_register(void)
{
    uint64_t bits = below(16) ? VALID | 2ull << 8 : any();

    switch (below(32)) {
    case 0:
        AT4(ITS) = 0;
        AT8(ITS + 0x80) = VALID | address() | (below(4) ? 15 : below(256));
        AT4(ITS) = (uint32_t)(below(16) ? 1 : any());
        break;
    case 1:
        AT4(ITS) = 0;
        AT8(ITS + 0x100) = bits | address() | (below(8) ? 7 : 1ull << 62 | below(256));
        AT8(ITS + 0x108) = bits | address();
        AT4(ITS) = 1;
        break;
    case 2:
        AT8(ITS + below(0x10000 / 8) * 8) = any();
        AT4(ITS) = 1;
        break;
    case 3:
        AT8(REDISTRIBUTOR + 0x70) = address() | 15;
        AT8(REDISTRIBUTOR + 0x78) = address() | below(2) << 62;
        AT4(REDISTRIBUTOR) = below(4) != 0;
        break;
    case 4:
        AT4(REDISTRIBUTOR) = below(16) != 0;
        break;
    case 5:
        AT8(REDISTRIBUTOR + 0xB0) = any();
        break;
    case 6:
        AT8(REDISTRIBUTOR + below(0x10000 / 8) * 8) = any();
        break;
    default:
        AT8(REDISTRIBUTOR + 0xA0) = lpi();
    }
}

static void scribble(void)
{
    uint64_t at = TABLES + below(0x80000) / 8 * 8;

    AT8(at) = below(2) ? any() : VALID | address();
}

void main(void)
{
    text("guest: means no good, seed "), number(SEED), text("\r\n");
    for (uint64_t at = 0; at < 0x10000; at += 8)
        AT8(TABLES + at) = 0xA1A141A1A1A1A101;
    interface_on(0xF0);
    AT8(REDISTRIBUTOR + 0x70) = TABLES | 15;
    AT8(REDISTRIBUTOR + 0x78) = (TABLES + 0x10000) | 1ull << 62;
    AT4(REDISTRIBUTOR) = 1;
    AT8(ITS + 0x100) = VALID | (TABLES + 0x20000) | 2ull << 8 | 7;
    AT8(ITS + 0x108) = VALID | (TABLES + 0x30000) | 2ull << 8;
    AT8(ITS + 0x80) = VALID | (TABLES + 0x40000) | 15;
    AT4(ITS) = 1;
    __asm__ volatile("msr daifclr, #2");
    for (uint32_t round = 0; round < ROUNDS; round++) {
        switch (below(8)) {
        case 0:
            write_a_register();
            break;
        case 1:
            scribble();
            break;
        case 2:
        case 3:
            put_commands();
            break;
        case 4:
            (void)AT8(ITS + below(0x10000 / 8) * 8);
            break;
        default:
            AT4(TRANSLATER) = (uint32_t)event();
        }
    }
    text("guest: took "), number(taken), text(" interrupts\r\nguest: the end\r\n");
}
