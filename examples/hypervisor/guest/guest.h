/* What the guests share: where the devices are, and what they print. */
#ifndef GUEST_H
#define GUEST_H

#include <stdint.h>

#define READ(name) ({ uint64_t v_; __asm__ volatile("mrs %0, " name : "=r"(v_)); v_; })
#define WRITE(name, value) __asm__ volatile("msr " name ", %0; isb" : : "r"((uint64_t)(value)) : "memory")
#define AT4(address) (*(volatile uint32_t *)(uintptr_t)(address))
#define AT8(address) (*(volatile uint64_t *)(uintptr_t)(address))
#define VALID (1ull << 63)

enum {
    DISTRIBUTOR = 0x08000000,
    ITS = 0x08080000,
    TRANSLATER = ITS + 0x10040,
    REDISTRIBUTOR = 0x080A0000,
    UART = 0x09000000,
    LPI = 8200,
    DEVICE = 0xFFFF, /* whose messages the guest's own are */
};

static inline void text(const char *s)
{
    while (*s)
        AT4(UART) = (unsigned char)*s++;
}

static inline void number(uint32_t n)
{
    char digits[11] = "";
    int at = 10;

    do
        digits[--at] = (char)('0' + n % 10);
    while (n /= 10);
    text(&digits[at]);
}

/* The distributor, and this processor's interface with a mask of priorities. */
static inline void interface_on(uint64_t mask)
{
    AT4(DISTRIBUTOR) = 1 << 4 | 1 << 1;
    WRITE("S3_0_C12_C12_5", 7);  /* ICC_SRE_EL1 */
    WRITE("S3_0_C4_C6_0", mask); /* ICC_PMR_EL1 */
    WRITE("S3_0_C12_C12_7", 1);  /* ICC_IGRPEN1_EL1 */
}

#endif
