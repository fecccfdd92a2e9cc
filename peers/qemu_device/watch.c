/*
 * Looks on while QEMU runs with the device, or with its own ITS. The linker sends the calls named
 * here through the functions `__wrap_*` (wire.py), so nothing of this stands in the device.
 *
 * ITS_RECORD=FILE  each call of the library that a script has a line for, with what it answered, in
 *                  the words of docs/FORMATS.md, and a checksum of the state at each save and after
 *                  each restore: to_script.py makes a script and a report of it; SIGUSR2 ends it
 * ITS_TIMES=FILE   how long signals, commands and acknowledgements take, of both translators
 *
 * SPDX-License-Identifier: MIT OR Apache-2.0
 */
#include "qemu/osdep.h"
#include "qemu/cutils.h"
#include "qemu/timer.h"
#include "exec/memory.h"
#include "hw/intc/arm_gicv3_its_common.h"
#include "hw/intc/gicv3_internal.h"
#include "its.h"

#define REAL(call) extern typeof(call) __real_##call, __wrap_##call

REAL(its_new);
REAL(its_free);
REAL(its_read_register);
REAL(its_write_register);
REAL(its_read_lpi_register);
REAL(its_write_lpi_register);
REAL(its_read_memory);
REAL(its_write_memory);
REAL(its_forget);
REAL(its_signal);
REAL(its_best);
REAL(its_claim);
REAL(its_step);
REAL(its_save);
REAL(gicv3_its_init_mmio);

enum { PIECE = 64, LPIS = 65536 - 8192 };

/* ---- what goes to the library ---- */

static FILE *record;
static struct its_handle *machine; /* the one that is recorded */
static uint32_t processors;

static const char *word(uint32_t list, uint32_t number)
{
    static char text[32];
    uint64_t length = 0;

    its_text(list, number, (uint8_t *)text, sizeof(text) - 1, &length);
    text[MIN(length, sizeof(text) - 1)] = 0;
    return text;
}

static void G_GNUC_PRINTF(1, 2) say(const char *format, ...)
{
    va_list args;

    if (record) {
        va_start(args, format);
        vfprintf(record, format, args);
        va_end(args);
    }
}

static void say_bytes(const uint8_t *bytes, size_t count)
{
    for (size_t i = 0; record && i < count; i++) {
        fprintf(record, "%02x", bytes[i]);
    }
}

/* A call that a script makes in pieces of 64 bytes; a reply follows the bytes, or holds them. */
static void say_pieces(const char *call, uint64_t address, const uint8_t *bytes, uint64_t length)
{
    for (uint64_t at = 0; record && at < length; at += PIECE) {
        uint64_t count = MIN(PIECE, length - at);

        if (*call == 'p' && call[1] == 'e') {
            say("peek 0x%" PRIx64 " %" PRIu64 " -> bytes ", address + at, count);
            say_bytes(bytes + at, count);
            say("\n");
        } else if (*call == 'p' || !buffer_is_zero(bytes + at, count)) {
            say("%s 0x%" PRIx64 " ", call, address + at);
            say_bytes(bytes + at, count);
            say(*call == 'p' ? " -> ok\n" : "\n");
        }
    }
}

/* The tables that a save writes: a script has to have windows there. */
static struct its_stretch_out *tables(uint64_t *count)
{
    struct its_stretch_out *list;

    *count = 0;
    its_written(machine, NULL, 0, count);
    list = g_new(struct its_stretch_out, *count);
    its_written(machine, list, *count, count);
    for (uint64_t i = 0; i < *count; i++) {
        say("# table 0x%" PRIx64 " %" PRIu64 "\n", list[i].address, list[i].length);
    }
    return list;
}

/* What is pending; the whole of it goes into a checksum, where there is one. */
static uint64_t pending(GChecksum *sum)
{
    g_autofree uint32_t *list = g_new(uint32_t, LPIS);
    uint64_t all = 0, count;

    for (uint32_t vcpu = 0; vcpu < processors; vcpu++) {
        count = 0;
        its_pending(machine, vcpu, list, LPIS, &count);
        all += count;
        if (sum) {
            g_checksum_update(sum, (uint8_t *)list, sizeof(*list) * count);
            continue;
        }
        say("vcpu %u pending", vcpu);
        for (uint64_t i = 0; i < count; i++) {
            say(" %u", list[i]);
        }
        say(count ? "\n" : " none\n");
    }
    return all;
}

/* After a save: registers, tables as they stand in memory, and what is pending, in one number. */
static void say_state(const char *when)
{
    static const uint32_t offsets[] = { GITS_CTLR, GITS_CBASER, GITS_CWRITER, GITS_CREADR,
                                        GITS_BASER, GITS_BASER + 8 };
    g_autoptr(GChecksum) sum = g_checksum_new(G_CHECKSUM_SHA1);
    g_autofree struct its_stretch_out *list = NULL;
    struct its_redistributor_in redistributor;
    uint64_t count, value, waiting;

    for (size_t i = 0; i < ARRAY_SIZE(offsets); i++) {
        value = 0;
        __real_its_read_register(machine, 0, offsets[i], offsets[i] ? 8 : 4, &value);
        g_checksum_update(sum, (uint8_t *)&value, sizeof(value));
    }
    for (uint32_t vcpu = 0; vcpu < processors; vcpu++) {
        its_stored_lpi_registers(machine, vcpu, &redistributor);
        g_checksum_update(sum, (uint8_t *)&redistributor, sizeof(redistributor));
    }
    list = tables(&count);
    for (uint64_t i = 0; i < count; i++) {
        g_autofree uint8_t *bytes = g_malloc(list[i].length);

        __real_its_read_memory(machine, list[i].address, bytes, list[i].length);
        g_checksum_update(sum, bytes, list[i].length);
    }
    waiting = pending(sum);
    say("# state %s %s pending %" PRIu64 "\n", when, g_checksum_get_string(sum), waiting);
    fflush(record);
}

static void end_machine(void)
{
    if (record && machine) {
        uint64_t count;

        g_free(tables(&count));
        pending(NULL);
        say("done\n");
        fflush(record);
        machine = NULL;
    }
}

static volatile sig_atomic_t ending;

static void end_asked(int number)
{
    ending = 1;
}

/* After SIGUSR2 the record ends before the next signal. */
static void end_record(void)
{
    if (record && ending) {
        end_machine();
        fclose(record);
        record = NULL;
    }
}

static void __attribute__((constructor)) start_record(void)
{
    const char *name = getenv("ITS_RECORD");

    if (name) {
        record = fopen(name, "w");
        signal(SIGUSR2, end_asked);
        atexit(end_machine);
    }
}

uint32_t __wrap_its_new(struct its_handle *handle, const struct its_description_in *numbers,
                        const struct its_translator_in *translators, size_t translators_len,
                        const struct its_window_in *windows, size_t windows_len,
                        const uint64_t *tables_, size_t tables_len,
                        const struct its_redistributor_in *redistributors,
                        size_t redistributors_len, const struct its_requesters_in *requesters,
                        size_t requesters_len, const struct its_fill_in *fills, size_t fills_len,
                        const uint8_t *bytes, size_t bytes_len, struct its_make_fault_out *fault)
{
    uint32_t answer = __real_its_new(handle, numbers, translators, translators_len, windows,
                                     windows_len, tables_, tables_len, redistributors,
                                     redistributors_len, requesters, requesters_len, fills,
                                     fills_len, bytes, bytes_len, fault);

    if (!record || answer != ITS_DONE) {
        return answer;
    }
    end_machine();
    machine = handle;
    processors = numbers->vcpus;
    say("machine\n%s %u\nshards 16\nids %u %u\ngicr\n",
        numbers->vcpus > 16 ? "processors" : "vcpus", numbers->vcpus, numbers->device_bits,
        numbers->lpi_bits);
    say("%s", numbers->linux_guest ? "linux\n" : "");
    if (numbers->restored) {
        struct its_save_fault_out none;

        say("restore 0x%" PRIx64 " 0x%" PRIx64 " 0x%" PRIx64, translators->ctlr,
            translators->cbaser, translators->creadr);
        say(" 0x%" PRIx64 " 0x%" PRIx64 " 0x%" PRIx64 "\n", translators->cwriter,
            translators->baser0, translators->baser1);
        for (size_t i = 0; i < redistributors_len; i++) {
            say("rrestore %zu 0x%" PRIx64 " 0x%" PRIx64 " 0x%" PRIx64 "\n", i,
                redistributors[i].ctlr, redistributors[i].propbaser, redistributors[i].pendbaser);
        }
        for (size_t i = 0; i < fills_len; bytes += fills[i++].length) {
            say("# table 0x%" PRIx64 " %" PRIu64 "\n", fills[i].address, fills[i].length);
            say_pieces("bytes", fills[i].address, bytes, fills[i].length);
        }
        say("body\n");
        if (__real_its_save(handle, &none) == ITS_DONE) {
            say("save -> saved\n");
            say_state("restored");
        }
    } else {
        say("body\n");
    }
    return answer;
}

uint32_t __wrap_its_free(struct its_handle *handle)
{
    if (handle == machine) {
        end_machine();
    }
    return __real_its_free(handle);
}

uint32_t __wrap_its_read_register(struct its_handle *handle, uint32_t translator, uint32_t offset,
                                  uint32_t size, uint64_t *out)
{
    uint32_t answer = __real_its_read_register(handle, translator, offset, size, out);

    say("read 0x%x %u -> value 0x%" PRIx64 "\n", offset, size, *out);
    return answer;
}

uint32_t __wrap_its_write_register(struct its_handle *handle, uint32_t translator, uint32_t offset,
                                   uint32_t size, uint64_t value)
{
    say("write 0x%x %u 0x%" PRIx64 " -> ok\n", offset, size, value);
    return __real_its_write_register(handle, translator, offset, size, value);
}

uint32_t __wrap_its_read_lpi_register(struct its_handle *handle, uint32_t vcpu, uint32_t offset,
                                      uint32_t size, uint64_t *out)
{
    uint32_t answer = __real_its_read_lpi_register(handle, vcpu, offset, size, out);

    say("rread %u 0x%x %u -> value 0x%" PRIx64 "\n", vcpu, offset, size, *out);
    return answer;
}

uint32_t __wrap_its_write_lpi_register(struct its_handle *handle, uint32_t vcpu, uint32_t offset,
                                       uint32_t size, uint64_t value)
{
    say("rwrite %u 0x%x %u 0x%" PRIx64 " -> ok\n", vcpu, offset, size, value);
    return __real_its_write_lpi_register(handle, vcpu, offset, size, value);
}

uint32_t __wrap_its_read_memory(struct its_handle *handle, uint64_t address, uint8_t *buffer,
                                size_t buffer_len)
{
    uint32_t answer = __real_its_read_memory(handle, address, buffer, buffer_len);

    if (answer == ITS_DONE) {
        say_pieces("peek", address, buffer, buffer_len);
    }
    return answer;
}

uint32_t __wrap_its_write_memory(struct its_handle *handle, uint64_t address, const uint8_t *bytes,
                                 size_t bytes_len)
{
    uint32_t answer = __real_its_write_memory(handle, address, bytes, bytes_len);

    if (answer == ITS_DONE) {
        say_pieces("poke", address, bytes, bytes_len);
    }
    return answer;
}

uint32_t __wrap_its_forget(struct its_handle *handle, uint64_t address, uint64_t length)
{
    uint32_t answer = __real_its_forget(handle, address, length);

    if (record && answer == ITS_DONE) {
        g_autofree uint8_t *zeros = g_malloc0(length);

        say_pieces("poke", address, zeros, length);
    }
    return answer;
}

uint32_t __wrap_its_signal(struct its_handle *handle, uint32_t translator, uint32_t device,
                           uint32_t event, struct its_signal_out *out)
{
    uint32_t answer;

    end_record();
    answer = __real_its_signal(handle, translator, device, event, out);

    if (out->cause == ITS_CAUSE_DELIVERED) {
        say("signal %u %u -> delivered %u %u\n", device, event, out->vcpu, out->intid);
    } else {
        say("signal %u %u -> dropped %s\n", device, event, word(ITS_LIST_CAUSES, out->cause));
    }
    return answer;
}

static void say_lpi(const struct its_ack_out *out)
{
    if (out->intid) {
        say(" -> lpi %u 0x%x\n", out->intid, out->priority);
    } else {
        say(" -> none\n");
    }
}

uint32_t __wrap_its_best(struct its_handle *handle, uint32_t vcpu, uint32_t mask,
                         struct its_ack_out *out)
{
    uint32_t answer = __real_its_best(handle, vcpu, mask, out);

    say("best %u 0x%x", vcpu, mask);
    say_lpi(out);
    return answer;
}

uint32_t __wrap_its_claim(struct its_handle *handle, uint32_t vcpu, uint32_t intid,
                          struct its_ack_out *out)
{
    uint32_t answer = __real_its_claim(handle, vcpu, intid, out);

    say("claim %u %u", vcpu, intid);
    say_lpi(out);
    return answer;
}

static const char *command_name(uint32_t op)
{
    static const char *const names[] = { [1] = "movi", [3] = "int", "clear", "sync", [8] = "mapd",
                                         "mapc", "mapti", "mapi", "inv", "invall", "movall",
                                         "discard" };
    static char number[16];

    if (op < ARRAY_SIZE(names) && names[op]) {
        return names[op];
    }
    snprintf(number, sizeof(number), "0x%x", op);
    return number;
}

uint32_t __wrap_its_step(struct its_handle *handle, uint32_t translator, struct its_step_out *out)
{
    uint32_t answer = __real_its_step(handle, translator, out);

    if (answer != ITS_DONE) {
        return answer;
    }
    say("step -> %s", word(ITS_LIST_OUTCOMES, out->outcome));
    if (out->outcome == ITS_OUTCOME_RAN || out->outcome == ITS_OUTCOME_REFUSED) {
        say(" %s", command_name(out->op));
    }
    if (out->outcome == ITS_OUTCOME_REFUSED) {
        say(" %s", word(ITS_LIST_REASONS, out->reason));
    } else if (out->outcome == ITS_OUTCOME_QUEUE_FAULT) {
        say(" 0x%" PRIx64, out->address);
    }
    say("\n");
    return answer;
}

/* ---- times ---- */

enum kind { SIGNAL, ACKNOWLEDGEMENT, SAVE, COMMANDS, KINDS = COMMANDS + 17 };
static const char *const kinds[] = { "signal", "acknowledgement", "save" };

static const char *times_file;
static GArray *times[KINDS];
static const MemoryRegionOps *timed[2];
static int (*message)(GICv3ITSState *, uint32_t, uint16_t);

static void took(unsigned kind, int64_t since)
{
    uint32_t ns = get_clock() - since;

    if (!times[kind]) {
        times[kind] = g_array_new(false, false, sizeof(ns));
    }
    g_array_append_val(times[kind], ns);
}

void its_watch_acknowledgement(int64_t since);
void its_watch_acknowledgement(int64_t since)
{
    took(ACKNOWLEDGEMENT, since);
}

/* A save, for the record and for the times. */
uint32_t __wrap_its_save(struct its_handle *handle, struct its_save_fault_out *fault)
{
    int64_t since = get_clock();
    uint32_t answer = __real_its_save(handle, fault);

    if (times_file) {
        took(SAVE, since);
    }
    if (record && answer == ITS_DONE) {
        say("save -> saved\n");
        say_state("saved");
    }
    return answer;
}

static int by_size(gconstpointer a, gconstpointer b)
{
    const uint32_t *x = a, *y = b;

    return *x < *y ? -1 : *x > *y;
}

static void end_times(void)
{
    FILE *out = fopen(times_file, "w");

    for (unsigned kind = 0; kind < KINDS; kind++) {
        GArray *list = times[kind];

        if (list) {
            g_array_sort(list, by_size);
            fprintf(out, "%s %u %u %u %u\n",
                    kind < COMMANDS ? kinds[kind] : command_name(kind - COMMANDS), list->len,
                    g_array_index(list, uint32_t, list->len / 10),
                    g_array_index(list, uint32_t, list->len / 2),
                    g_array_index(list, uint32_t, list->len * 9 / 10));
        }
    }
    fclose(out);
}

static void __attribute__((constructor)) start_times(void)
{
    times_file = getenv("ITS_TIMES");
    if (times_file) {
        atexit(end_times);
    }
}

static int timed_message(GICv3ITSState *s, uint32_t event, uint16_t device)
{
    int64_t since = get_clock();
    int result = message(s, event, device);

    took(SIGNAL, since);
    return result;
}

static MemTxResult timed_translation(void *opaque, hwaddr offset, uint64_t value, unsigned size,
                                     MemTxAttrs attrs)
{
    int64_t since = get_clock();
    MemTxResult result = timed[1]->write_with_attrs(opaque, offset, value, size, attrs);

    took(SIGNAL, since);
    return result;
}

/* Linux queues one command and a SYNC, and waits. The command's byte 0 says which it is. */
static MemTxResult timed_control(void *opaque, hwaddr offset, uint64_t value, unsigned size,
                                 MemTxAttrs attrs)
{
    GICv3ITSState *s = opaque;
    uint64_t base = 0, from = 0;
    uint8_t op = 0xFF;
    MemTxResult result;
    int64_t since;

    if (offset == GITS_CWRITER) {
        timed[0]->read_with_attrs(opaque, GITS_CBASER, &base, 8, attrs);
        timed[0]->read_with_attrs(opaque, GITS_CREADR, &from, 8, attrs);
        address_space_read(&s->gicv3->dma_as, (base & MAKE_64BIT_MASK(12, 40)) + from,
                           MEMTXATTRS_UNSPECIFIED, &op, 1);
    }
    since = get_clock();
    result = timed[0]->write_with_attrs(opaque, offset, value, size, attrs);
    if (op < KINDS - COMMANDS && value == from + 64) {
        took(COMMANDS + op, since);
    }
    return result;
}

void __wrap_gicv3_its_init_mmio(GICv3ITSState *s, const MemoryRegionOps *control,
                                const MemoryRegionOps *translation)
{
    GICv3ITSCommonClass *class = ARM_GICV3_ITS_COMMON_GET_CLASS(s);
    static MemoryRegionOps both[2];

    if (times_file) {
        timed[0] = control;
        both[0] = *control;
        both[0].write_with_attrs = timed_control;
        control = &both[0];
    }
    if (times_file && translation) {
        timed[1] = translation;
        both[1] = *translation;
        both[1].write_with_attrs = timed_translation;
        translation = &both[1];
    } else if (times_file) {
        message = class->send_msi;
        class->send_msi = timed_message;
    }
    __real_gicv3_its_init_mmio(s, control, translation);
}
