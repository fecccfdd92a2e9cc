/* A guest without an operating system: plays the list of operations that generate.py wrote at OPS.
 *
 * An operation is three words of 8 bytes: a number, an address or a processor, a value. The memory management unit
 * stays off. Processors 1 to 3 wait for a request to acknowledge an interrupt; processor 0 does all else. What QEMU
 * did is seen from its trace, so nothing is printed.
 */
typedef unsigned long u64;
typedef unsigned int u32;

#define OPS 0x48000000UL
#define MAILBOX 0x46000000UL
#define GICD_CTLR 0x08000000UL
#define GICR_WAKER(n) (0x080A0014UL + 0x20000UL * (n))
#define PROCESSORS 4
#define PSCI_SYSTEM_OFF 0x84000008UL
#define PSCI_CPU_ON 0xC4000003UL

enum { END, WRITE32, WRITE64, READ32, READ64, TAKE, DRAIN };

/* each processor's stack is 16 KiB below 0x47000000 + 0x4000 * (its number + 1) */
__asm__(".section .text.start\n"
        ".global _start\n"
        "_start:\n"
        "  mrs x0, mpidr_el1\n"
        "  and x0, x0, #0xff\n"
        "  mov x1, #0x47000000\n"
        "  add x2, x0, #1\n"
        "  add x1, x1, x2, lsl #14\n"
        "  mov sp, x1\n"
        "  bl begin\n"
        "1: wfe\n"
        "  b 1b\n"
        ".text\n");

void _start(void);

static volatile u64 *request(u64 processor)
{
    return (volatile u64 *)(MAILBOX + 64 * processor);
}

static u64 psci(u64 function, u64 a, u64 b)
{
    register u64 x0 __asm__("x0") = function;
    register u64 x1 __asm__("x1") = a;
    register u64 x2 __asm__("x2") = b;
    register u64 x3 __asm__("x3") = 0;
    __asm__ volatile("hvc #0" : "+r"(x0), "+r"(x1), "+r"(x2), "+r"(x3) : : "memory");
    return x0;
}

/* System registers by their encodings: SRE, PMR, IGRPEN1, IAR1, EOIR1 of the CPU interface. */
static void interface_on(u64 processor)
{
    volatile u32 *waker = (volatile u32 *)GICR_WAKER(processor);
    *waker = 0;
    while (*waker & 4)
        ;
    __asm__ volatile("msr S3_0_C12_C12_5, %0\n isb" : : "r"(7UL));
    __asm__ volatile("msr S3_0_C4_C6_0, %0" : : "r"(0xffUL));
    __asm__ volatile("msr S3_0_C12_C12_7, %0\n isb" : : "r"(1UL));
}

/* Acknowledges one interrupt, and ends it. */
static u64 acknowledge(void)
{
    u64 intid;
    __asm__ volatile("dsb sy\n mrs %0, S3_0_C12_C12_0\n dsb sy" : "=r"(intid) : : "memory");
    if (intid < 1020 || intid > 1023)
        __asm__ volatile("msr S3_0_C12_C12_1, %0\n isb" : : "r"(intid));
    return intid;
}

/* What a request's word says: 0 nothing, 1 acknowledge one; the answer is the INTID and 2^32. */
static void serve(u64 processor)
{
    volatile u64 *word = request(processor);
    for (;;) {
        if (*word == 1)
            *word = acknowledge() | 1UL << 32;
        __asm__ volatile("yield");
    }
}

static u64 take(u64 processor)
{
    volatile u64 *word = request(processor);
    if (processor == 0)
        return acknowledge();
    *word = 1;
    while (*word == 1)
        ;
    return *word & 0xffffffffUL;
}

static void play(const u64 *op)
{
    for (; op[0] != END; op += 3) {
        if (op[0] == WRITE32)
            *(volatile u32 *)op[1] = (u32)op[2];
        if (op[0] == WRITE64)
            *(volatile u64 *)op[1] = op[2];
        if (op[0] == READ32)
            (void)*(volatile u32 *)op[1];
        if (op[0] == READ64)
            (void)*(volatile u64 *)op[1];
        if (op[0] == TAKE)
            take(op[1]);
        while (op[0] == DRAIN && take(op[1]) != 1023)
            ;
    }
}

void begin(u64 processor)
{
    if (processor != 0) {
        interface_on(processor);
        *request(processor) = 2;
        serve(processor);
    }
    *(volatile u32 *)GICD_CTLR = 0x13;
    interface_on(0);
    for (u64 n = 1; n < PROCESSORS; n++) {
        psci(PSCI_CPU_ON, n, (u64)_start);
        while (*request(n) != 2)
            ;
    }
    play((const u64 *)OPS);
    psci(PSCI_SYSTEM_OFF, 0, 0);
}
