/* A machine of KVM with some processors, a GICv3, an ITS and a stretch of memory, all made and driven by ioctls. */
#ifndef MACHINE_H
#define MACHINE_H
#include <stdint.h>

#define MEMORY 0x80000000ull
#define MEMORY_LENGTH 0x240000ull
#define ITS_FRAME 0x08080000ull
#define REDISTRIBUTORS 0x080A0000ull
#define REDISTRIBUTOR_STRIDE 0x20000ull
#define MOST_PROCESSORS 16

/* What a processor is asked to do, in the words of guest.S. */
enum { NOTHING, ACKNOWLEDGE, READ32, READ64, WRITE32, WRITE64 };

int machine_open(void);
/* A new machine; it has the old one's memory where `keep` is set, and else zeros. */
int machine_make(int processors, int keep);
int machine_processors(void);

/* Each of these is 0 or an errno. */
int its_write(uint32_t offset, uint64_t value);
int its_read(uint32_t offset, uint64_t *value);
int redistributor_write(int processor, uint32_t offset, uint32_t value);
int redistributor_read(int processor, uint32_t offset, uint32_t *value);
int save_tables(void);
int restore_tables(void);
int save_pending(void);

/* Above 0: delivered; 0: there is nothing to deliver; below 0: an errno. */
int signal_event(uint32_t device, uint32_t event);

/* One thing done by a processor, and what came of it. */
int ask(int processor, int what, uint64_t address, uint64_t value, uint64_t *result);
/* Each processor but one goes in and out. KVM looks then at what is pending there: it forgets what no longer is, and
 * hands on what has another processor by now. */
int visit(int but);
/* The INTID that a processor acknowledges, after each other one was inside once. */
int acknowledge(int processor, uint64_t *intid);

/* The bytes at an address of the machine's memory, or 0 where they aren't all there. */
uint8_t *memory_at(uint64_t address, uint64_t length);
#endif
