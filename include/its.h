/*
 * The Interrupt Translation Service of an Arm GICv3, for a machine monitor.
 *
 * A handle has one machine: one translator or two, the LPI side of 1 to 512 redistributors, and its own
 * copy of the guest memory that they use. A call that asks a translator takes its number, 0 or 1, as
 * `translator`, and answers ITS_RANGE where the machine has none of that number. The library starts no
 * thread, takes no lock and calls nothing but the three functions of a heap (docs/LIBRARY.md), memcpy,
 * memmove and memset. Calls with one handle are made one at a time; two handles have nothing in common.
 *
 * Beside it there is a machine that threads share, by passes, in a library of its own: see its_share.
 *
 * Every pointer is borrowed for the call alone, and nothing is kept of it. A list is a pointer and
 * how many elements it has, of at most PTRDIFF_MAX bytes together; at none the pointer isn't read. No
 * two pointers of a call point into the same memory. Every other number may be anything: what is out
 * of its range is answered. Where a call doesn't answer ITS_DONE it changed nothing, but for the fault
 * that it tells with ITS_FAULT.
 *
 * The numbers of an enum have words, which its_text tells, but for those of its_route and its_list;
 * where docs/FORMATS.md prints a word, it is that. Fields have 32 or 64 bits, and no enum's type.
 * Section numbers are those of Arm IHI 0069.
 * examples/monitor/check_header.py holds this file to the sources of both libraries.
 *
 * SPDX-License-Identifier: MIT OR Apache-2.0
 */
#ifndef ITS_H
#define ITS_H

#include <stddef.h>
#include <stdint.h>

#ifdef __cplusplus
extern "C" {
#endif

/* Counts the changes of this file after which a caller is built anew. */
#define ITS_VERSION 7

/* What a call answers. */
enum its_answer {
    ITS_DONE = 0,      /* it was made */
    ITS_NO_MEMORY = 1, /* the host's memory ran out: the same call may be made again */
    ITS_OUTSIDE = 2,   /* the bytes don't all lie in guest memory */
    ITS_RANGE = 3,     /* a number is out of its range */
    ITS_FAULT = 4,     /* the description or the state is at fault, as the call tells */
    ITS_HANDLE = 5,    /* the handle has no machine; at its_new: it has one already */
    ITS_FULL = 6,      /* the guest has as many events, devices or pages as it may; of its_new and its_share: more */
    ITS_BUSY = 7,      /* of a pass: another has a part that is needed, or made a call meanwhile; try again */
    ITS_SPENT = 8      /* of a pass: all places of the machine's history are used, and no call is made */
};

/*
 * Why a description makes no machine. 1 to 4, 14 and 15 are of the description, the others of what is
 * restored of `translator`.
 */
enum its_make_fault_kind {
    ITS_MAKE_WINDOWS = 1,            /* no memory can have the windows */
    ITS_MAKE_CONFIG = 2,             /* the configuration table doesn't lie in one window */
    ITS_MAKE_PENDING = 3,            /* the pending table of `vcpu` doesn't */
    ITS_MAKE_BYTES = 4,              /* the fill `number`, from 0, doesn't */
    ITS_MAKE_OUTSIDE_TABLE = 5,      /* the entry at `address` doesn't lie in one window */
    ITS_MAKE_BAD_SIZE = 6,           /* `device` has more than 16 EventID bits */
    ITS_MAKE_BAD_INTID = 7,          /* `intid` of `device` and `event` is no LPI */
    ITS_MAKE_PAST_END = 8,           /* `entry` of `table` leads `distance` entries on, past its end */
    ITS_MAKE_BAD_TARGET = 9,         /* `collection` goes to `number`, which is no virtual processor */
    ITS_MAKE_DOUBLE_COLLECTION = 10, /* `collection` has two entries */
    ITS_MAKE_NOT_VALID = 11,         /* the register at `register_offset` can't stand beside the others */
    ITS_MAKE_BAD_COLLECTION = 12,    /* `collection` has no place in the table */
    ITS_MAKE_BAD_REDIST = 13,        /* a table of virtual processor `vcpu` doesn't lie in one window */
    ITS_MAKE_ITS_BASE = 14,          /* the frames of `translator` end past 2^52, or share a byte with a
                                        window or with the other frames */
    ITS_MAKE_REQUESTER = 15          /* element `number` of requesters, from 0: `first` is above `last`, a
                                        device is past 2^32 - 1, or one is in an earlier element */
};

/* Why a state can't be saved. */
enum its_save_fault_kind {
    ITS_SAVE_NO_PLACE = 1, /* the level-1 entry of `device` of `translator` isn't valid */
    ITS_SAVE_OUTSIDE = 2,  /* `region` doesn't lie in one window */
    ITS_SAVE_OVERLAP = 3   /* `region` and `other_region` share a byte, and one of them is written */
};

/* A stretch of guest memory that a save looks at. */
enum its_region {
    ITS_REGION_DEVICES = 1,     /* the flat device table of a translator, as 2 to 5 and 9 are a translator's */
    ITS_REGION_LEVEL1 = 2,      /* the first level of a device table */
    ITS_REGION_PAGE = 3,        /* the page of level-1 entry `number` */
    ITS_REGION_COLLECTIONS = 4, /* the collection table */
    ITS_REGION_ITT = 5,         /* the interrupt translation table of device `number` */
    ITS_REGION_PENDING = 6,     /* the pending table of virtual processor `number` */
    ITS_REGION_CONFIG = 7,      /* the configuration table of all */
    ITS_REGION_CONFIG_OF = 8,   /* that of virtual processor `number` */
    ITS_REGION_QUEUE = 9        /* the command queue */
};

/* Where a signal went, or why it went nowhere. */
enum its_cause {
    ITS_CAUSE_DELIVERED = 0,     /* the LPI is pending */
    ITS_CAUSE_DISABLED = 1,      /* the translator is not enabled */
    ITS_CAUSE_NO_DEVICE = 2,     /* the device is not mapped */
    ITS_CAUSE_NO_EVENT = 3,      /* the event is not, or has too many bits */
    ITS_CAUSE_NO_COLLECTION = 4, /* the event's collection is not mapped */
    ITS_CAUSE_LPIS_OFF = 5       /* the target's LPIs are off */
};

/* Why a command was refused. */
enum its_reason {
    ITS_REASON_UNKNOWN_COMMAND = 1,
    ITS_REASON_DEVICE_RANGE = 2,
    ITS_REASON_SIZE_RANGE = 3,
    ITS_REASON_TARGET_RANGE = 4,
    ITS_REASON_COLLECTION_RANGE = 5,
    ITS_REASON_NO_DEVICE = 6,
    ITS_REASON_EVENT_RANGE = 7,
    ITS_REASON_INTID_RANGE = 8,
    ITS_REASON_NO_EVENT = 9,
    ITS_REASON_NO_COLLECTION = 10,
    ITS_REASON_LPIS_OFF = 11
};

/* What became of a step. */
enum its_outcome {
    ITS_OUTCOME_IDLE = 0,       /* no command, or not enabled */
    ITS_OUTCOME_RAN = 1,        /* it had its effect */
    ITS_OUTCOME_REFUSED = 2,    /* it had none */
    ITS_OUTCOME_QUEUE_FAULT = 3 /* its 32 bytes don't lie in one window */
};

/* A table whose entries lead from one to the next. */
enum its_table {
    ITS_TABLE_DEVICES = 1, /* the device table */
    ITS_TABLE_ITT = 2      /* the interrupt translation table of `device` */
};

/* What a device's write by address was. */
enum its_route {
    ITS_ROUTE_MEMORY = 0,       /* guest memory was written */
    ITS_ROUTE_OUTSIDE = 1,      /* its bytes don't lie in one window */
    ITS_ROUTE_NO_REQUESTER = 2, /* a message of a requester that is no device */
    ITS_ROUTE_FRAME = 3,        /* it meets a frame, and is no message */
    ITS_ROUTE_SIGNAL = 4        /* a message */
};

/* The lists of words that its_text has. */
enum its_list {
    ITS_LIST_ANSWERS = 1,
    ITS_LIST_MAKE_FAULTS = 2,
    ITS_LIST_SAVE_FAULTS = 3,
    ITS_LIST_REGIONS = 4,
    ITS_LIST_CAUSES = 5,
    ITS_LIST_REASONS = 6,
    ITS_LIST_OUTCOMES = 7,
    ITS_LIST_TABLES = 8
};

/*
 * A machine, or none. Begin with ITS_NO_MACHINE, and never read, write or copy `at`: whoever has the
 * handle owns the machine. It may go to another thread between two calls.
 */
struct its_handle {
    void *at;
};
#define ITS_NO_MACHINE { NULL }

/* What a machine is made from, but for its lists. */
struct its_description_in {
    uint32_t vcpus;        /* virtual processors, 1 to 512 */
    uint32_t device_bits;  /* of a DeviceID, 16 to 20 */
    uint32_t lpi_bits;     /* of the INTID of an LPI, 14 to 20 */
    uint32_t profile;      /* a MAPC of a mapped collection: 1 pending LPIs stay, 2 they move */
    uint32_t programmed;   /* 0 LPIs are on at the tables given, 1 the guest programs GICR_* */
    uint32_t restored;     /* 0 as at reset, 1 from guest memory and the translators' registers, 2 so, of KVM's tables */
    uint32_t linux_guest;  /* 1 with what a Linux guest counts on (docs/FORMATS.md, `linux`), 0 not */
    uint64_t config;       /* address of the LPI configuration table, where programmed is 0 */
    uint64_t event_limit;  /* events that each translator may map; UINT64_MAX: as many as there are */
    uint64_t device_limit; /* devices, so */
    uint64_t memory_limit; /* bytes of guest memory that may be held, in pages of 65,536, so */
};

/*
 * A translator of a machine: one or two of them, whose numbers are 0 and 1. They share guest memory and
 * the redistributors, and nothing else: each has registers, tables, a command queue and maps of its own.
 */
struct its_translator_in {
    uint32_t has_frames; /* 1 devices write to it by address (its_dma) and frames says where, 0 not */
    uint64_t frames;     /* address of its two frames of 64 KiB, where has_frames is 1 */
    uint64_t ctlr;       /* GITS_CTLR to restore, of which bit 0 counts */
    uint64_t cbaser;     /* GITS_CBASER */
    uint64_t creadr;     /* GITS_CREADR */
    uint64_t cwriter;    /* GITS_CWRITER */
    uint64_t baser0;     /* GITS_BASER0 */
    uint64_t baser1;     /* GITS_BASER1 */
};

/*
 * A window of guest memory: 1 to 16 of them, of any length, below 2^52, that share no byte. The host's
 * memory goes with what is written to them, in pages of 64 KiB, and not with their lengths.
 */
struct its_window_in {
    uint64_t base;   /* guest physical address */
    uint64_t length; /* in bytes, at least 1 */
};

/* Bytes that guest memory has at first: the next `length` of the list of all bytes. */
struct its_fill_in {
    uint64_t address;
    uint64_t length;
};

/* The LPI registers of a redistributor to restore (section 12.11). */
struct its_redistributor_in {
    uint64_t ctlr; /* GICR_CTLR, of which bit 0 counts */
    uint64_t propbaser;
    uint64_t pendbaser; /* bit 62, Pending Table Zero, as it was stored */
};

/* Which devices some requesters are: `first` is `device`, those after it the devices after that. */
struct its_requesters_in {
    uint32_t first;
    uint32_t last;
    uint32_t device;
};

/*
 * Why a description makes no machine: the first that applies, in the order of docs/FORMATS.md
 * (sections 1 and 7). What a kind doesn't name is 0.
 */
struct its_make_fault_out {
    uint32_t kind; /* of enum its_make_fault_kind */
    uint32_t translator; /* of what is restored, and of kind ITS_MAKE_ITS_BASE */
    uint32_t vcpu;
    uint32_t device;
    uint32_t event;
    uint32_t intid;
    uint32_t collection;
    uint32_t table; /* of enum its_table */
    uint32_t entry;
    uint32_t distance;
    uint32_t register_offset;
    uint64_t number;
    uint64_t address;
};

/*
 * Why a state can't be saved: the first that applies, in the order of docs/FORMATS.md (section 6).
 * What a kind doesn't name is 0.
 */
struct its_save_fault_out {
    uint32_t kind; /* of enum its_save_fault_kind */
    uint32_t translator; /* of kind ITS_SAVE_NO_PLACE, and of a region that is a translator's */
    uint32_t device;
    uint32_t region; /* of enum its_region */
    uint32_t number;
    uint32_t other_region;
    uint32_t other_number;
    uint32_t other_translator; /* of other_region, so */
};

/* Where a signal went. */
struct its_signal_out {
    uint32_t cause; /* of enum its_cause; where it isn't 0, the others are */
    uint32_t vcpu;
    uint32_t intid;
};

/* What a device's write by address was. */
struct its_dma_out {
    uint32_t outcome;             /* of enum its_route */
    struct its_signal_out signal; /* of a message; else all zero */
};

/* Where a signal of an event would go. What isn't told is 0. */
struct its_event_out {
    uint32_t cause; /* of enum its_cause, but never 1: the maps are asked */
    uint32_t intid; /* this and the collection are told from cause 4 on, and at 0 */
    uint32_t collection;
    uint32_t vcpu; /* at cause 5 and at 0 */
};

/* An LPI to acknowledge. */
struct its_ack_out {
    uint32_t intid;    /* 8192 and up; 0: none is pending and enabled */
    uint32_t priority; /* 0 to 252, a multiple of 4; lower is more urgent */
};

/* What became of a step. */
struct its_step_out {
    uint32_t outcome; /* of enum its_outcome */
    uint32_t op;      /* byte 0 of a command that ran or was refused (section 5.3) */
    uint32_t reason;  /* of enum its_reason, of a refused command */
    uint64_t address; /* of a command whose bytes don't lie in one window */
    /*
     * Bit V % 64 of word V / 64 is set where the command read or changed the pending LPIs or the
     * configuration of virtual processor V, so what its_show and its_best tell of it may be another. Where
     * it is clear, that processor has the pending LPIs and the configuration that it had. No bit is set
     * where no command ran.
     */
    uint64_t concerned[8];
};

/* A stretch of guest memory. */
struct its_stretch_out {
    uint64_t address;
    uint64_t length; /* in bytes */
};

/* A mapped device (section 5.2.3). */
struct its_device_out {
    uint32_t device;
    uint32_t event_bits; /* of its EventIDs, 1 to 16 */
    uint64_t itt;        /* address of its interrupt translation table */
};

/* A mapped event of a device (section 5.2.4). */
struct its_mapping_out {
    uint32_t event;
    uint32_t intid;
    uint32_t collection; /* which need not be mapped */
};

/* A mapped collection (section 5.2.5). */
struct its_collection_out {
    uint32_t collection;
    uint32_t vcpu; /* that it goes to */
};

/* How many signals went where. A count stays at 2^64 - 1. */
struct its_signal_counts {
    uint64_t delivered; /* of cause ITS_CAUSE_DELIVERED; the others of theirs */
    uint64_t disabled;
    uint64_t no_device;
    uint64_t no_event;
    uint64_t no_collection;
    uint64_t lpis_off;
};

/* How many commands were refused, of each enum its_reason. A count stays at 2^64 - 1. */
struct its_refused_counts {
    uint64_t unknown_command;
    uint64_t device_range;
    uint64_t size_range;
    uint64_t target_range;
    uint64_t collection_range;
    uint64_t no_device;
    uint64_t event_range;
    uint64_t intid_range;
    uint64_t no_event;
    uint64_t no_collection;
    uint64_t lpis_off;
};

/* What is counted of the calls of a machine, or of a pass, from its making on, of all translators together. */
struct its_counters {
    struct its_signal_counts signals; /* its_signal and its_dma of a message */
    struct its_refused_counts refused; /* its_step and its_step_with */
};

/*
 * The word that a number of a list has (enum its_list): `buffer` gets its beginning, as many bytes as
 * it takes, with no zero at the end, and `count` how long the word is, at most 24. ITS_RANGE where
 * the list has no such number.
 */
uint32_t its_text(uint32_t list, uint32_t number, uint8_t *buffer, size_t buffer_len,
                  uint64_t *count);

/*
 * Makes a machine for a handle that has none, with the translators of a list of one or two: ITS_RANGE at
 * another length. Guest memory is the windows, zero but for the fills. `pending` has the address of each
 * virtual processor's pending table, where `programmed` is 0; `redistributors` has the registers of each,
 * where it is 1, which count where `restored` is 1. The lengths of the fills are together bytes_len. A
 * machine that was saved comes up again with the memory and the registers that it had. ITS_FULL where more
 * events or devices of a translator are restored than the limits say, or the fills take more pages: the
 * memory that they took is free again, and the handle has none. ITS_NO_MEMORY, ITS_RANGE, ITS_FAULT with
 * `fault`, ITS_HANDLE.
 */
uint32_t its_new(struct its_handle *handle, const struct its_description_in *numbers,
                 const struct its_translator_in *translators, size_t translators_len,
                 const struct its_window_in *windows, size_t windows_len, const uint64_t *pending,
                 size_t pending_len, const struct its_redistributor_in *redistributors,
                 size_t redistributors_len, const struct its_requesters_in *requesters,
                 size_t requesters_len, const struct its_fill_in *fills, size_t fills_len,
                 const uint8_t *bytes, size_t bytes_len, struct its_make_fault_out *fault);

/* Frees the machine and its memory; the handle has none then. ITS_HANDLE where it had none. */
uint32_t its_free(struct its_handle *handle);

/*
 * Reads a register of the control frame of a translator at an offset of it, by 4 or 8 bytes (section
 * 12.19). What can't be reached so reads zero. ITS_RANGE where there is no such translator or at another
 * size, ITS_HANDLE.
 */
uint32_t its_read_register(struct its_handle *handle, uint32_t translator, uint32_t offset,
                           uint32_t size, uint64_t *out);

/* Writes one; what can't be written so is ignored. Errors as for reading. */
uint32_t its_write_register(struct its_handle *handle, uint32_t translator, uint32_t offset,
                            uint32_t size, uint64_t value);

/*
 * Reads GICR_CTLR (0x0), GICR_PROPBASER (0x70) or GICR_PENDBASER (0x78) of a redistributor by 4 or 8
 * bytes (section 12.11), where the guest programs them; else zero. ITS_RANGE where there is no such
 * virtual processor or at another size, ITS_HANDLE.
 */
uint32_t its_read_lpi_register(struct its_handle *handle, uint32_t vcpu, uint32_t offset,
                               uint32_t size, uint64_t *out);

/*
 * Writes one of these, or GICR_INVLPIR (0xA0) or GICR_INVALLR (0xB0). ITS_NO_MEMORY only of a write
 * that turns LPIs on, which has changed nothing; and errors as for reading.
 */
uint32_t its_write_lpi_register(struct its_handle *handle, uint32_t vcpu, uint32_t offset,
                                uint32_t size, uint64_t value);

/*
 * The values that the LPI registers of a redistributor are restored from, as `redistributors` of
 * its_new takes them. They are those that are read, but that Pending Table Zero, which reads zero, is
 * as it was stored. All zero where the guest doesn't program them. ITS_RANGE where there is no such
 * virtual processor, ITS_HANDLE.
 */
uint32_t its_stored_lpi_registers(struct its_handle *handle, uint32_t vcpu,
                                  struct its_redistributor_in *out);

/*
 * Copies bytes of guest memory from an address on into `buffer`. ITS_OUTSIDE where not each 64 bytes
 * of them, counted from the first, lie in one window: the buffer is as it was. ITS_HANDLE.
 */
uint32_t its_read_memory(struct its_handle *handle, uint64_t address, uint8_t *buffer,
                         size_t buffer_len);

/*
 * Copies `bytes` to guest memory from an address on, all or none. ITS_NO_MEMORY, and errors as for
 * reading. ITS_FULL where memory_limit would be passed; it is answered one page before that too, where the
 * bytes don't all lie in one page that is held.
 */
uint32_t its_write_memory(struct its_handle *handle, uint64_t address, const uint8_t *bytes,
                          size_t bytes_len);

/*
 * Makes bytes zero, all or none, and gives back the pages of 64 KiB that lie wholly inside. It takes no
 * memory of the host. ITS_OUTSIDE where no window has them all, ITS_HANDLE.
 */
uint32_t its_forget(struct its_handle *handle, uint64_t address, uint64_t length);

/*
 * The first page that is held, from an address on: where it is, or goes on, and how many bytes it has
 * from there on, at most 65,536; length 0 where there is none. All bytes of guest memory from that
 * address on and before the page are zero. ITS_HANDLE.
 */
uint32_t its_next_page(struct its_handle *handle, uint64_t from, struct its_stretch_out *out);

/*
 * Guest memory gets another window, of zeros, as where memory is plugged in: from now on it is as one of
 * those that the machine was made with, and takes no page until something is written there. ITS_FAULT with
 * `fault`, whose kind is ITS_MAKE_ITS_BASE where it shares a byte with the frames of `translator`, and else
 * ITS_MAKE_WINDOWS, where there are 16 windows, or it has no byte, ends past 2^52 or shares a byte with
 * another. ITS_NO_MEMORY, ITS_HANDLE.
 */
uint32_t its_add_window(struct its_handle *handle, uint64_t base, uint64_t length,
                        struct its_make_fault_out *fault);

/* A device's message to a translator. It takes no memory of the host. ITS_RANGE, ITS_HANDLE. */
uint32_t its_signal(struct its_handle *handle, uint32_t translator, uint32_t device, uint32_t event,
                    struct its_signal_out *out);

/*
 * A write of 1 to 64 bytes by a requester, at an address: a message to a translator, where these are two
 * or four bytes at 65,600 after its frames; nothing, where they meet frames otherwise; else a write of
 * guest memory. ITS_NO_MEMORY and ITS_FULL only of such a write, as of its_write_memory; ITS_RANGE at another
 * count of bytes, ITS_HANDLE.
 */
uint32_t its_dma(struct its_handle *handle, uint32_t requester, uint64_t address,
                 const uint8_t *bytes, size_t bytes_len, struct its_dma_out *out);

/* Where a signal of this event to a translator would go; nothing changes. ITS_RANGE, ITS_HANDLE. */
uint32_t its_event(struct its_handle *handle, uint32_t translator, uint32_t device, uint32_t event,
                   struct its_event_out *out);

/*
 * A virtual processor acknowledges its lowest LPI that is pending and enabled, which is then no
 * longer pending. It takes no memory of the host. ITS_RANGE where there is no such virtual
 * processor, ITS_HANDLE.
 */
uint32_t its_take(struct its_handle *handle, uint32_t vcpu, struct its_ack_out *out);

/* The LPI that it would acknowledge; nothing changes. Errors as for its_take. */
uint32_t its_show(struct its_handle *handle, uint32_t vcpu, struct its_ack_out *out);

/*
 * Of the LPIs that are pending and enabled at a virtual processor, with a priority below `mask`, the
 * one of the least priority, and among these the lowest; nothing changes. ITS_RANGE where there is no
 * such virtual processor or `mask` is above 255, ITS_HANDLE.
 */
uint32_t its_best(struct its_handle *handle, uint32_t vcpu, uint32_t mask, struct its_ack_out *out);

/*
 * A virtual processor acknowledges LPI `intid`, if it is pending and enabled there, which is then no
 * longer pending; else `out` has intid 0, and nothing changes. It takes no memory of the host. Errors
 * as for its_take.
 */
uint32_t its_claim(struct its_handle *handle, uint32_t vcpu, uint32_t intid,
                   struct its_ack_out *out);

/*
 * All LPIs that are pending at a virtual processor, enabled or not, rising: `list` gets the first of
 * them, as many as it takes, and `count` how many there are. ITS_NO_MEMORY, ITS_RANGE where there is
 * no such virtual processor, ITS_HANDLE.
 */
uint32_t its_pending(struct its_handle *handle, uint32_t vcpu, uint32_t *list, size_t list_len,
                     uint64_t *count);

/*
 * The stretches of guest memory that the next its_step of a translator reads: none where it takes no
 * command; else the command's 32 bytes first, and then what this command, as the machine's memory has it
 * now, reads besides. `list` gets the first of them, as many as it takes, and `count` how many there are,
 * at most one more than virtual processors, and never more than 2 where these share a configuration table.
 * Whatever other bytes guest memory has, the step's answer is the same, and so are the registers, maps,
 * pending LPIs and configurations that it leaves. A stretch may lie outside guest memory. ITS_RANGE,
 * ITS_HANDLE.
 */
uint32_t its_needs(struct its_handle *handle, uint32_t translator, struct its_stretch_out *list,
                   size_t list_len, uint64_t *count);

/*
 * So what the next its_step reads where the 32 bytes of its command are these, whatever the machine's
 * memory has there: for who lends them (its_step_with). ITS_RANGE, also where command_len isn't 32, ITS_HANDLE.
 */
uint32_t its_needs_of(struct its_handle *handle, uint32_t translator, const uint8_t *command,
                      size_t command_len, struct its_stretch_out *list, size_t list_len,
                      uint64_t *count);

/*
 * A translator takes the next command of its queue (section 5.3). ITS_NO_MEMORY only of a command
 * that adds a device, an event or a collection; ITS_FULL only of one that adds a device or an event,
 * where the translator has as many mapped as the limits say: the command stays in the queue. ITS_RANGE,
 * ITS_HANDLE.
 */
uint32_t its_step(struct its_handle *handle, uint32_t translator, struct its_step_out *out);

/*
 * The same with guest memory that is lent for this step: the stretches of `list`, of which each has the
 * next of `bytes`. its_needs tells where the command is, and its_needs_of what it reads besides. The step
 * is made as if guest memory had these bytes alone; a stretch that doesn't lie in one window is passed
 * over. The machine's own memory is neither read nor changed, and nothing that was lent is held
 * afterwards. Where all that it reads is lent as guest memory has it, it does what its_step does.
 * ITS_RANGE, also where the lengths aren't together bytes_len, ITS_NO_MEMORY also for what is lent, ITS_FULL as
 * of its_step, ITS_HANDLE.
 */
uint32_t its_step_with(struct its_handle *handle, uint32_t translator,
                       const struct its_stretch_out *list, size_t list_len, const uint8_t *bytes,
                       size_t bytes_len, struct its_step_out *out);

/*
 * How many events each translator may map from now on, in the place of the description's limit; UINT64_MAX
 * is no limit. Events that are mapped stay, also where they are more. ITS_HANDLE.
 */
uint32_t its_limit(struct its_handle *handle, uint64_t events);

/* So how many events and devices of each translator, and how many bytes of guest memory. ITS_HANDLE. */
uint32_t its_limits(struct its_handle *handle, uint64_t events, uint64_t devices, uint64_t memory);

/*
 * How often a translation may have ended, of whichever translator, counted from 0: by a MAPD, MAPC, MAPTI,
 * MAPI, MOVI or DISCARD that ran, by a write of GITS_BASER0 or GITS_BASER1, also one that is ignored, and
 * by its_migrate. While the number stays, each event leads where it led (its_event), as far as the maps
 * say: GITS_CTLR and GICR_CTLR, which turn translators and LPIs on and off, are the caller's to look at.
 * ITS_HANDLE.
 */
uint32_t its_routes_changed(struct its_handle *handle, uint64_t *count);

/*
 * How often signals went where and commands were refused for which reason, counted from 0 at its_new. Each
 * call that answers ITS_DONE raises what it told by one, and any other none. ITS_HANDLE.
 */
uint32_t its_counters(struct its_handle *handle, struct its_counters *out);

/*
 * Writes the tables to guest memory: devices, events, collections and pending LPIs, in the format of
 * KVM's ITS (ABI revision 0). ITS_NO_MEMORY, ITS_FAULT with `fault`, ITS_FULL where memory_limit would be
 * passed, as of its_write_memory, ITS_HANDLE.
 */
uint32_t its_save(struct its_handle *handle, struct its_save_fault_out *fault);

/*
 * The tables that a save of this state writes: right after its_save or its_migrate these are what was
 * written. A save changes no byte outside them. `list` gets the first of them, as many as it takes, and
 * `count` how many there are. ITS_NO_MEMORY, ITS_HANDLE.
 */
uint32_t its_written(struct its_handle *handle, struct its_stretch_out *list, size_t list_len,
                     uint64_t *count);

/*
 * Saves into a copy of guest memory, and goes on from what that copy and the registers say: as
 * a save and a new machine do, in place. Errors as for its_save.
 */
uint32_t its_migrate(struct its_handle *handle, struct its_save_fault_out *fault);

/*
 * What a translator has mapped, in pieces: `list` gets the first devices from DeviceID `from` on, by rising
 * DeviceID, as many as it takes, and `count` how many it has got. Where these are fewer than it takes, no
 * more follow; else the next piece begins at the last one's DeviceID plus 1. Each call goes through the
 * devices below `from` too. ITS_RANGE, ITS_HANDLE.
 */
uint32_t its_list_devices(struct its_handle *handle, uint32_t translator, uint32_t from,
                          struct its_device_out *list, size_t list_len, uint64_t *count);

/* So the mapped events of a device, by rising EventID; of one that isn't mapped there are none. */
uint32_t its_list_events(struct its_handle *handle, uint32_t translator, uint32_t device,
                         uint32_t from, struct its_mapping_out *list, size_t list_len,
                         uint64_t *count);

/* And so the mapped collections, by rising number. */
uint32_t its_list_collections(struct its_handle *handle, uint32_t translator, uint32_t from,
                              struct its_collection_out *list, size_t list_len, uint64_t *count);

/* ---- A machine that threads share (libits_shared.a) ---- */

/*
 * A pass of a machine that threads share, or none. Begin with ITS_NO_PASS, and never read, write or copy
 * `at`. Calls with one pass are made one at a time; passes are used beside each other, by any threads. It
 * may go to another thread between two calls.
 *
 * Every call that answers ITS_DONE has a place, which it tells: all calls of the machine's passes are one
 * history, counted from 0, in which each is answered as by a machine of one caller that makes the calls of
 * the places before it. A call's place is after those of all calls that its pass has made before it. The
 * last eight only look, and are no calls of the history.
 *
 * No call waits. Where another pass has a part that it needs (the maps, guest memory, a shard of the cache,
 * one of a processor's two parts), or makes a call meanwhile, it answers ITS_BUSY: nothing happened, and
 * the same call may be made again. its_wait.h has how to wait between two tries. A place has 56 bits:
 * ITS_SPENT comes after 2^56 - 1 calls, and no call of this machine is made any more then. That is two
 * thousand years at a million calls a second. Of a machine with two translators a place has 40 bits:
 * ITS_SPENT comes after 2^40 - 1 calls, which is twelve days at a million a second. What a call tells is as
 * it was where it answers neither ITS_DONE, nor ITS_FAULT or ITS_OUTSIDE, which are replies with a place.
 */
struct its_pass {
    void *at;
};
#define ITS_NO_PASS { NULL }

/*
 * Makes a machine that threads share, and gives its first pass, the root, to a handle that has none.
 * Arguments and answers as of its_new, but that ITS_HANDLE is of a handle with a pass. The calls of the
 * root keep to the description's limits.
 */
uint32_t its_share(struct its_pass *root, const struct its_description_in *numbers,
                   const struct its_translator_in *translators, size_t translators_len,
                   const struct its_window_in *windows, size_t windows_len, const uint64_t *pending,
                   size_t pending_len, const struct its_redistributor_in *redistributors,
                   size_t redistributors_len, const struct its_requesters_in *requesters,
                   size_t requesters_len, const struct its_fill_in *fills, size_t fills_len,
                   const uint8_t *bytes, size_t bytes_len, struct its_make_fault_out *fault);

/*
 * Splits another pass off the root, for a handle that has none: one for each thread, or each device queue.
 * Its calls keep to the limits that those of the root then do. It makes no call of the history. ITS_RANGE
 * where `root` is not the root, or has given 2^32 - 1 passes; ITS_NO_MEMORY; ITS_HANDLE where `root` has no
 * pass or `pass` has one.
 */
uint32_t its_split(struct its_pass *root, struct its_pass *pass);

/*
 * Frees a pass, the root too, in any order; the handle has none then. The machine and its memory go with
 * the last pass. ITS_HANDLE where it had none.
 */
uint32_t its_pass_free(struct its_pass *pass);

/*
 * How many events and devices each translator may map, and how many bytes of guest memory be held, by this
 * pass's calls from now on, and by those of passes that are split off it later; UINT64_MAX is no limit.
 * What is mapped or held stays. Where passes have different limits each call keeps to those of its pass.
 * ITS_HANDLE.
 */
uint32_t its_pass_limits(struct its_pass *pass, uint64_t events, uint64_t devices, uint64_t memory);

/*
 * As its_routes_changed, of the steps and writes of registers that this pass made, counted from 0 where it was
 * made. A monitor adds up the numbers of the passes that make them: while the sum stays, so do the maps. It
 * takes no part, so it is never busy. ITS_HANDLE.
 */
uint32_t its_pass_routes_changed(struct its_pass *pass, uint64_t *count);

/*
 * As its_counters, of the signals, writes by address and steps of this pass, counted from 0 where it was
 * made. It takes no part, so it is never busy. ITS_HANDLE.
 */
uint32_t its_pass_counters(struct its_pass *pass, struct its_counters *out);

/* A device's message. ITS_RANGE; and ITS_BUSY, ITS_SPENT, ITS_HANDLE, as each call of a pass that follows. */
uint32_t its_pass_signal(struct its_pass *pass, uint32_t translator, uint32_t device,
                         uint32_t event, uint64_t *place, struct its_signal_out *out);

/* A write by a requester at an address, as by its_dma. ITS_NO_MEMORY, ITS_FULL, ITS_RANGE. */
uint32_t its_pass_dma(struct its_pass *pass, uint32_t requester, uint64_t address,
                      const uint8_t *bytes, size_t bytes_len, uint64_t *place,
                      struct its_dma_out *out);

/* Acknowledgements, as by its_take, its_show, its_best and its_claim. ITS_RANGE. */
uint32_t its_pass_take(struct its_pass *pass, uint32_t vcpu, uint64_t *place,
                       struct its_ack_out *out);
uint32_t its_pass_show(struct its_pass *pass, uint32_t vcpu, uint64_t *place,
                       struct its_ack_out *out);
uint32_t its_pass_best(struct its_pass *pass, uint32_t vcpu, uint32_t mask, uint64_t *place,
                       struct its_ack_out *out);
uint32_t its_pass_claim(struct its_pass *pass, uint32_t vcpu, uint32_t intid, uint64_t *place,
                        struct its_ack_out *out);

/* Registers, as by its_read_register and the others. ITS_RANGE; ITS_NO_MEMORY of the last. */
uint32_t its_pass_read_register(struct its_pass *pass, uint32_t translator, uint32_t offset,
                                uint32_t size, uint64_t *place, uint64_t *out);
uint32_t its_pass_write_register(struct its_pass *pass, uint32_t translator, uint32_t offset,
                                 uint32_t size, uint64_t value, uint64_t *place);
uint32_t its_pass_read_lpi_register(struct its_pass *pass, uint32_t vcpu, uint32_t offset,
                                    uint32_t size, uint64_t *place, uint64_t *out);
uint32_t its_pass_write_lpi_register(struct its_pass *pass, uint32_t vcpu, uint32_t offset,
                                     uint32_t size, uint64_t value, uint64_t *place);

/*
 * A translator takes the next command of its queue. ITS_NO_MEMORY only of a command that adds a device,
 * an event or a collection; ITS_FULL only of one that adds a device or an event, where the translator has as
 * many mapped as the limits say: the command stays in the queue. `concerned` is told as of its_step, of the
 * state in which the step was made. ITS_RANGE.
 */
uint32_t its_pass_step(struct its_pass *pass, uint32_t translator, uint64_t *place,
                       struct its_step_out *out);

/*
 * Copies 1 to 64 bytes to guest memory, which one window has; else the call is made and answers
 * ITS_OUTSIDE, with its place. ITS_NO_MEMORY, ITS_FULL as of its_write_memory, ITS_RANGE at another count.
 */
uint32_t its_pass_write_memory(struct its_pass *pass, uint64_t address, const uint8_t *bytes,
                               size_t bytes_len, uint64_t *place);

/*
 * Copies 1 to 64 bytes of guest memory into `buffer`; else as for writing, but for ITS_NO_MEMORY and
 * ITS_FULL.
 */
uint32_t its_pass_read_memory(struct its_pass *pass, uint64_t address, uint8_t *buffer,
                              size_t buffer_len, uint64_t *place);

/*
 * Writes the tables to guest memory, as its_save does. Where the state can't be saved the call is made
 * and answers ITS_FAULT, with its place and `fault`. ITS_NO_MEMORY; ITS_FULL where the pass's limit of memory
 * would be passed, as of its_save: no call was made then.
 */
uint32_t its_pass_save(struct its_pass *pass, uint64_t *place, struct its_save_fault_out *fault);

/*
 * Calls that look at the machine's state. They are none of its history and get no place in it: `place` is
 * how many calls the history has, and what is told is so after just these. ITS_SPENT isn't answered, and
 * ITS_BUSY only where another pass has a part that is needed: the maps, of its_pass_event also what is
 * pending at the target; of its_pass_pending and its_pass_stored_lpi_registers one of the processor's two
 * alone; of its_pass_needs the maps and guest memory, and where the next command reads configurations those
 * of all processors; of its_pass_written all but the cache. ITS_RANGE of those that ask a translator,
 * ITS_HANDLE.
 */
uint32_t its_pass_event(struct its_pass *pass, uint32_t translator, uint32_t device,
                        uint32_t event, uint64_t *place, struct its_event_out *out);

/* As its_pending. ITS_NO_MEMORY, ITS_RANGE. */
uint32_t its_pass_pending(struct its_pass *pass, uint32_t vcpu, uint64_t *place, uint32_t *list,
                          size_t list_len, uint64_t *count);

/* As its_stored_lpi_registers. ITS_RANGE. */
uint32_t its_pass_stored_lpi_registers(struct its_pass *pass, uint32_t vcpu, uint64_t *place,
                                       struct its_redistributor_in *out);

/*
 * As its_needs. It stays so until the step, unless another pass steps, saves, or writes registers or
 * memory meanwhile: a step at the place that is told here reads just these stretches. ITS_NO_MEMORY.
 */
uint32_t its_pass_needs(struct its_pass *pass, uint32_t translator, uint64_t *place,
                        struct its_stretch_out *list, size_t list_len, uint64_t *count);

/*
 * As its_written. Where its_pass_save was done at place P, and this tells P + 1, these are the tables that
 * it wrote. ITS_NO_MEMORY.
 */
uint32_t its_pass_written(struct its_pass *pass, uint64_t *place, struct its_stretch_out *list,
                          size_t list_len, uint64_t *count);

/* As its_list_devices, its_list_events and its_list_collections. */
uint32_t its_pass_list_devices(struct its_pass *pass, uint32_t translator, uint32_t from,
                               uint64_t *place, struct its_device_out *list, size_t list_len,
                               uint64_t *count);
uint32_t its_pass_list_events(struct its_pass *pass, uint32_t translator, uint32_t device,
                              uint32_t from, uint64_t *place, struct its_mapping_out *list,
                              size_t list_len, uint64_t *count);
uint32_t its_pass_list_collections(struct its_pass *pass, uint32_t translator, uint32_t from,
                                   uint64_t *place, struct its_collection_out *list,
                                   size_t list_len, uint64_t *count);

#ifdef __cplusplus
}
#endif

#endif
