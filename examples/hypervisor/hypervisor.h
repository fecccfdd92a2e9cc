/* What the files of the hypervisor share. README.md says which file has which part. */
#ifndef HYPERVISOR_H
#define HYPERVISOR_H

#include <stdbool.h>
#include <stddef.h>
#include <stdint.h>

#include "its.h"

/* The machine: QEMU's `virt` with highmem=off. The guest has the same map, but for the end of RAM. */
enum {
    DISTRIBUTOR = 0x08000000,
    ITS_CONTROL = 0x08080000,
    ITS_TRANSLATION = 0x08090000,
    REDISTRIBUTORS = 0x080A0000, /* two frames for each processor */
    FRAME = 0x10000,
    UART = 0x09000000,
    RAM = 0x40000000,
    RAM_LENGTH = 0x30000000, /* of the guest; the rest of 1 GiB is the hypervisor's */
    GUEST_ENTRY = 0x40200000,
    GUEST_TREE = 0x47000000, /* its device tree */
};

enum {
    MOST_PROCESSORS = 4,
    LISTS = 4, /* list registers that are used */
    FIRST_LPI = 8192,
    MAINTENANCE = 25, /* the interrupt by which list registers call for more */
    PROCESSORS_DEVICE = 0xFFFF, /* DeviceID of the guest's own writes of GITS_TRANSLATER */
};

/* A virtual processor, which stays on one processor. entry.S knows the places up to `q`. */
struct vcpu {
    uint64_t x[31];
    uint64_t pc;
    uint64_t pstate;
    uint64_t fpcr, fpsr;
    uint64_t stack; /* where the hypervisor's own begins on this processor */
    unsigned __int128 q[32];

    uint32_t number;
    bool in_guest;           /* written under the lock, but for false as it leaves the guest */
    uint64_t lists[LISTS];   /* its list registers, while it is out of the guest */
    uint64_t lists_control;  /* ICH_HCR_EL2, as it enters */
    uint32_t shown;          /* the LPI that one of them has as pending, or 0 */
    uint32_t sgis;           /* software interrupts that wait for a list register */
    uint32_t hardware[32];   /* bits: interrupts of the machine that wait for one */
    uint8_t priorities[32];  /* of its first 32 interrupts, as the guest wrote them */
};

extern struct vcpu vcpus[MOST_PROCESSORS];
extern uint32_t vcpus_count;

/* What is told at the end. */
extern struct counts {
    uint64_t exits, accesses, commands, refused, messages, delivered, claimed, physical, kicks;
} counts;

/* entry.S */
void enter_guest(struct vcpu *vcpu) __attribute__((noreturn));
void secondary_start(void);
uint64_t smc(uint64_t function, uint64_t a, uint64_t b, uint64_t c);

/* console.c: %u and %x of 64 bits, and %s */
void print(const char *format, ...);
void stop(const char *why, uint64_t number) __attribute__((noreturn));

/* stage2.c */
void stage2_make(void);
void stage2_use(void);
bool is_guest_ram(uint64_t address, uint64_t length);

/* traps.c */
struct access {
    uint64_t address;
    uint32_t size;
    bool is_write;
    uint64_t value; /* written, or to be read */
};
void guest_exited(struct vcpu *vcpu, uint64_t kind);

/* psci.c */
void power_call(struct vcpu *vcpu);
void tell_counts(void);

/* world.c: one lock, and how others are stopped */
void take_lock(void);
void give_lock(void);
void kick(struct vcpu *vcpu);
void gather(uint32_t which);
void kick_all(uint32_t which);

/* lists.c */
void lists_reset(void);
void lists_read(struct vcpu *vcpu);
void lists_fold(struct vcpu *vcpu);
void lists_fill(struct vcpu *vcpu);
void lists_write(struct vcpu *vcpu);

/* gic.c: the machine's own controller, of which the guest sees the distributor through traps */
uint64_t device_read(uint64_t address, uint32_t size);
void device_write(uint64_t address, uint32_t size, uint64_t value);
void gic_start(void);
void gic_start_processor(uint32_t number);
void gic_interrupt(struct vcpu *vcpu);
uint8_t gic_priority(const struct vcpu *vcpu, uint32_t intid);
void distributor_access(struct access *access);
bool distributor_is_on(void);
void redistributor_access(struct access *access);
void send_software_interrupt(struct vcpu *vcpu, uint64_t value);

/* physical_its.c: the machine's own ITS, which brings the messages of the guest's devices */
void physical_its_start(void);
void physical_device(uint32_t device);
void physical_event(uint32_t device, uint32_t event);
bool physical_message(uint32_t intid, uint32_t *device, uint32_t *event);

/* translator.c: the library */
void translator_start(void);
void translator_access(struct access *access);
void lpi_register_access(uint32_t number, uint32_t offset, struct access *access);
void message(uint32_t device, uint32_t event);
void claim(struct vcpu *vcpu, uint32_t intid);
struct its_ack_out best(struct vcpu *vcpu);

/* heap.c */
extern size_t heap_used;

#define READ(name) ({ uint64_t v_; __asm__ volatile("mrs %0, " name : "=r"(v_)); v_; })
#define WRITE(name, value) __asm__ volatile("msr " name ", %0" : : "r"((uint64_t)(value)) : "memory")
#define BARRIER() __asm__ volatile("dsb sy; isb" : : : "memory")

#endif
