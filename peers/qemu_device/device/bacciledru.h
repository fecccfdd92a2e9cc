/*
 * The parts of an ITS for QEMU's machine `virt` whose translator is the library (its.h), and with it
 * the LPI side of the redistributors. README.md says how it is built and tried.
 *
 * QEMU makes every call with its big lock held, which is the lock of the handle. What the library
 * reads of guest memory is copied in within the same piece of work as the call that reads it.
 *
 * SPDX-License-Identifier: MIT OR Apache-2.0
 */
#ifndef BACCILEDRU_H
#define BACCILEDRU_H

#include "compat.h"
#include "qemu/timer.h"
#include "hw/intc/arm_gicv3_its_common.h"
#include "hw/intc/arm_gicv3_lpi_ops.h"
#include "its.h"

#define TYPE_BACCILEDRU_ITS "arm-gicv3-its-bacciledru"
OBJECT_DECLARE_SIMPLE_TYPE(BacciledruIts, BACCILEDRU_ITS)

enum {
    MOST = 512,                    /* processors */
    WORDS = MOST / 64,             /* of a set of them, as a step tells it */
    WINDOWS = 16,
    EVENTS = 65536,                /* that a guest may map: more than there are LPIs */
    CONFIG_BYTES = 65536 - 8192,   /* a byte for each LPI of 16 bits */
    PENDING_FROM = 1024,           /* the first byte of a pending table that has an LPI's bit */
    PENDING_BYTES = 8192 - 1024,   /* from there on */
    TABLE_PAGE = 65536,
    TABLE_PAGES = 8,               /* that count of a table, at 16 DeviceID bits */
    REFUSALS = 8,                  /* that are remembered */
};

typedef struct Refusal {
    uint64_t place;                /* of the command in its queue, in bytes */
    uint64_t words[2];             /* its first 16 bytes */
    uint32_t reason;
} Refusal;

/* What the library doesn't count, from the last reset on. */
typedef struct Counters {
    uint64_t acknowledged;
    uint64_t ran;
    uint64_t remembered;           /* commands that were refused, the last of them in `refusals` */
    uint64_t slices;
    uint64_t saves;
    uint64_t not_saved;
    uint64_t added;                /* windows of the machine, while it ran */
    uint64_t widened;              /* new machines for windows that grew */
    uint64_t failures;             /* answers that no guest brings about */
    int64_t longest_write;         /* of the control frame, in ns */
    int64_t longest_slice;         /* of a queue, in ns */
} Counters;

struct BacciledruIts {
    GICv3ITSState parent_obj;
    GICv3State *gic;
    struct its_handle *handle;
    bool made;                     /* whether the handle has a machine: from the first reset on */
    struct its_window_in windows[WINDOWS + 1]; /* of all RAM that there was, for the next machine */
    size_t windows_len;
    struct its_window_in had[WINDOWS];         /* those of the machine, in no order */
    size_t had_len;
    bool wider;                    /* `windows` has more than these */
    MemoryListener listener;
    VMChangeStateEntry *changes;
    uint64_t mapped;               /* events at most: those that are unmapped count on */
    QEMUBH *queue;                 /* takes commands, a slice at a time */
    QEMUTimer *again;              /* where the host had no memory for one */
    Error *unsaved;                /* why the tables in guest memory aren't the present ones */
    struct its_counters before;    /* what machines before this one counted since the last reset */
    Counters counters;
    Refusal refusals[REFUSALS];    /* number `counters.remembered - 1`, modulo REFUSALS, is the last */
};

typedef enum Source { FROM_NOTHING, FROM_GUEST, FROM_LIBRARY } Source;

/* calls.c */
char *bacciledru_word(uint32_t list, uint32_t number);
bool bacciledru_done(BacciledruIts *s, const char *call, uint32_t answer);
struct its_counters bacciledru_counted(BacciledruIts *s);
uint64_t bacciledru_register(BacciledruIts *s, uint32_t offset, uint32_t size);
void bacciledru_keep_registers(BacciledruIts *s);
void bacciledru_keep_lpi_registers(BacciledruIts *s, int vcpu);
void bacciledru_show_first(BacciledruIts *s, int vcpu);
void bacciledru_update_line(BacciledruIts *s, int vcpu);

/* memory.c */
bool bacciledru_is_ram(BacciledruIts *s, uint64_t address, uint64_t length);
void bacciledru_guest_read(BacciledruIts *s, uint64_t address, void *bytes, uint64_t length);
bool bacciledru_copy_in(BacciledruIts *s, uint64_t address, uint64_t length);
bool bacciledru_copy_out(BacciledruIts *s, uint64_t address, uint64_t length);
void bacciledru_listen(BacciledruIts *s);

/* walk.c: all tables that registers and entries name */
typedef void TableAt(BacciledruIts *s, enum its_region kind, uint64_t address, uint64_t length,
                     void *opaque);
uint64_t bacciledru_table_of(uint64_t baser);
uint64_t bacciledru_config_of(GICv3CPUState *cs);
uint64_t bacciledru_pending_of(GICv3CPUState *cs);
void bacciledru_read(BacciledruIts *s, Source source, uint64_t address, void *bytes,
                     uint64_t length);
void bacciledru_walk(BacciledruIts *s, Source source, TableAt *at, void *opaque);

/* machine.c */
bool bacciledru_make(BacciledruIts *s, Source source, Error **errp);

/* windows.c */
void bacciledru_note_window(BacciledruIts *s, uint64_t base, uint64_t end);
void bacciledru_widen(BacciledruIts *s);

/* save.c */
bool bacciledru_save_inside(BacciledruIts *s, Error **errp);
void bacciledru_save(BacciledruIts *s);
int bacciledru_pre_save(void *opaque);
int bacciledru_post_load(void *opaque, int version);

/* queue.c */
void bacciledru_take_commands(BacciledruIts *s);
void bacciledru_take_waited(BacciledruIts *s);
void bacciledru_queue_init(BacciledruIts *s);
int bacciledru_send_msi(GICv3ITSState *its, uint32_t event, uint16_t device);

/* redistributor.c */
extern const GICv3LPIOps bacciledru_lpi_ops;

/* info.c */
void bacciledru_info_init(ObjectClass *class);

#endif
