/* How much processor time calls take on this machine: the least of five rounds. */
#define _POSIX_C_SOURCE 199309L
#include "its.h"

#include <inttypes.h>
#include <stdio.h>
#include <stdlib.h>
#include <string.h>
#include <time.h>

enum { COUNT = 1000000, DEVICES = 8, EVENTS = 128, BITS = 7, MIB = 0x100000, VCPUS = 512 };

static const uint64_t RAM = 0x80000000, CONFIG = 0x80030000, QUEUE = 0x80020000, ITTS = 0x80100000;
static const uint64_t TABLES[2] = {0x80040000, 0x80050000};

static uint64_t sum;
static uint32_t slot;

static double now(void)
{
    struct timespec t;
    clock_gettime(CLOCK_PROCESS_CPUTIME_ID, &t);
    return (double)t.tv_sec * 1e9 + (double)t.tv_nsec;
}

#define TIME(name, count, call)                                                            \
    do {                                                                                   \
        double least = 1e18;                                                               \
        for (int round = 0; round < 5; round++) {                                          \
            double from = now();                                                           \
            for (long i = 0; i < (count); i++) {                                           \
                call;                                                                      \
            }                                                                              \
            double each = (now() - from) / (double)(count);                                \
            least = each < least ? each : least;                                           \
        }                                                                                  \
        printf("%-50s %12.1f ns\n", (name), least);                                        \
    } while (0)

static void made(const char *call, uint32_t answer)
{
    if (answer != ITS_DONE) {
        printf("%s answers %u\n", call, answer);
        exit(1);
    }
}

/* A machine of two processors, with one window from RAM on. Every LPI is enabled. */
static void start(struct its_handle *its, uint64_t length)
{
    static uint8_t bytes[57344];
    struct its_description_in numbers = {.vcpus = 2, .device_bits = 16, .lpi_bits = 16, .profile = 1, .config = CONFIG,
                                         .event_limit = UINT64_MAX, .device_limit = UINT64_MAX, .memory_limit = UINT64_MAX};
    const struct its_translator_in translator = {0};
    struct its_window_in window = {RAM, length};
    struct its_fill_in fill = {CONFIG, sizeof bytes};
    struct its_make_fault_out unmade;
    memset(bytes, 0xa1, sizeof bytes);
    made("its_new", its_new(its, &numbers, &translator, 1, &window, 1, TABLES, 2, NULL, 0, NULL, 0, &fill, 1, bytes, sizeof bytes,
                            &unmade));
}

/* Puts a command into the queue's next place, and says how far the queue is written now. */
static void put(struct its_handle *its, uint64_t first, uint64_t second, uint64_t third)
{
    uint64_t words[4] = {first, second, third, 0};
    made("its_write_memory", its_write_memory(its, QUEUE + 32 * (uint64_t)slot, (const uint8_t *)words, sizeof words));
    slot = (slot + 1) % 128;
    made("its_write_register", its_write_register(its, 0, 0x88, 8, 32 * (uint64_t)slot));
}

static void run(struct its_handle *its, uint64_t first, uint64_t second, uint64_t third)
{
    struct its_step_out step;
    put(its, first, second, third);
    made("its_step", its_step(its, 0, &step));
    if (step.outcome != ITS_OUTCOME_RAN) {
        printf("command 0x%02x has outcome %u\n", step.op, step.outcome);
        exit(1);
    }
}

/* The guest's driver: devices 0 to 7 with 128 events each, all of one collection. */
static void drive(struct its_handle *its)
{
    slot = 0;
    its_write_register(its, 0, 0x100, 8, 0x8107000080000200);
    its_write_register(its, 0, 0x108, 8, 0x8407000080010200);
    its_write_register(its, 0, 0x80, 8, 0x8000000000000000 | QUEUE);
    its_write_register(its, 0, 0, 4, 1);
    run(its, 9, 0, 0x8000000000010000);
    for (uint64_t device = 0; device < DEVICES; device++) {
        run(its, device << 32 | 8, BITS - 1, 0x8000000000000000 | (ITTS + 0x400 * device));
        for (uint64_t event = 0; event < EVENTS; event++)
            run(its, device << 32 | 0xa, (8192 + device * EVENTS + event) << 32 | event, 0);
    }
}

/* Saves of one event, while so many pages of 64 KiB are held beside those of the tables. */
static void time_saves(const char *name, uint64_t pages)
{
    struct its_handle its = ITS_NO_MACHINE;
    struct its_save_fault_out unsaved;
    start(&its, (uint64_t)1 << 30);
    slot = 0;
    its_write_register(&its, 0, 0x100, 8, 0x8107000080000200);
    its_write_register(&its, 0, 0x108, 8, 0x8407000080010200);
    its_write_register(&its, 0, 0x80, 8, 0x8000000000000000 | QUEUE);
    its_write_register(&its, 0, 0, 4, 1);
    run(&its, 9, 0, 0x8000000000010000);
    run(&its, (uint64_t)7 << 32 | 8, 0, 0x8000000000000000 | ITTS);
    run(&its, (uint64_t)7 << 32 | 0xa, (uint64_t)8192 << 32, 0);
    for (uint64_t page = 0; page < pages; page++)
        its_write_memory(&its, RAM + 256 * MIB + 0x10000 * page, (const uint8_t *)"its", 3);
    TIME(name, 100, made("its_save", its_save(&its, &unsaved)));
    its_free(&its);
}

static void new_and_free(uint64_t length)
{
    struct its_handle its = ITS_NO_MACHINE;
    start(&its, length);
    its_free(&its);
}

/* 512 processors, whose LPIs are on with one configuration table, or each with one of its own. */
static void start_many(struct its_handle *its, uint64_t apart)
{
    static const struct its_redistributor_in off[VCPUS];
    struct its_description_in numbers = {.vcpus = VCPUS, .device_bits = 16, .lpi_bits = 16, .profile = 1, .programmed = 1,
                                         .event_limit = UINT64_MAX, .device_limit = UINT64_MAX, .memory_limit = UINT64_MAX};
    const struct its_translator_in translator = {0};
    struct its_window_in window = {RAM, (uint64_t)1 << 30};
    struct its_make_fault_out unmade;
    made("its_new", its_new(its, &numbers, &translator, 1, &window, 1, NULL, 0, off, VCPUS, NULL, 0, NULL, 0, NULL, 0, &unmade));
    for (uint32_t vcpu = 0; vcpu < VCPUS; vcpu++) {
        its_write_lpi_register(its, vcpu, 0x70, 8, (CONFIG + apart * vcpu) | 15);
        its_write_lpi_register(its, vcpu, 0x78, 8, (uint64_t)1 << 62 | TABLES[0]);
        its_write_lpi_register(its, vcpu, 0x0, 4, 1);
    }
    drive(its);
}

static void time_many(const char *tables, uint64_t apart)
{
    static struct its_stretch_out list[VCPUS + 1];
    struct its_handle its = ITS_NO_MACHINE;
    struct its_step_out step;
    char name[64];
    uint64_t count;
    start_many(&its, apart);
    snprintf(name, sizeof name, "512 processors, %s: its_needs, nothing", tables);
    TIME(name, COUNT, its_needs(&its, 0, list, VCPUS + 1, &count); sum += count);
    put(&its, (uint64_t)7 << 32 | 0xc, 2, 0);
    snprintf(name, sizeof name, "512 processors, %s: its_needs, an INV", tables);
    TIME(name, 10000, its_needs(&its, 0, list, VCPUS + 1, &count); sum += count);
    made("its_step", its_step(&its, 0, &step));
    snprintf(name, sizeof name, "512 processors, %s: INV", tables);
    TIME(name, 10000, run(&its, (uint64_t)7 << 32 | 0xc, 2, 0));
    snprintf(name, sizeof name, "512 processors, %s: INT", tables);
    TIME(name, COUNT / 10, run(&its, (uint64_t)7 << 32 | 0x3, 2, 0));
    its_free(&its);
}

int main(void)
{
    static uint8_t memory[2 * MIB], other[2 * MIB];
    struct its_handle its = ITS_NO_MACHINE;
    struct its_save_fault_out unsaved;
    struct its_stretch_out list[18];
    struct its_signal_out signal;
    struct its_event_out event;
    struct its_step_out step;
    struct its_ack_out ack;
    uint64_t value, count;

    start(&its, (uint64_t)64 << 30);
    drive(&its);
    TIME("its_signal, pending already", COUNT, its_signal(&its, 0, 7, 2, &signal); sum += signal.intid);
    TIME("its_signal and its_take", COUNT, its_signal(&its, 0, 7, 2, &signal); its_take(&its, 1, &ack); sum += ack.intid);
    TIME("its_signal, its_best and its_claim", COUNT, its_signal(&its, 0, 7, 2, &signal); its_best(&its, 1, 255, &ack);
         its_claim(&its, 1, ack.intid, &ack); sum += ack.intid);
    TIME("its_event", COUNT, its_event(&its, 0, 7, 2, &event); sum += event.intid);
    TIME("its_read_register", COUNT, its_read_register(&its, 0, 0x90, 8, &value); sum += value);
    TIME("its_write_memory of 32 bytes", COUNT, its_write_memory(&its, QUEUE, memory, 32));
    TIME("its_write_memory of 2 MiB", 20, its_write_memory(&its, RAM + 16 * MIB, memory, sizeof memory));
    TIME("memcpy of 2 MiB", 20, memcpy(other, memory, sizeof memory); memory[i] = other[i + 1]);
    TIME("its_read_memory of 2 MiB", 20, its_read_memory(&its, RAM + 16 * MIB, memory, sizeof memory); sum += memory[0]);
    TIME("its_needs, nothing to take", COUNT, its_needs(&its, 0, list, 18, &count); sum += count);
    put(&its, (uint64_t)7 << 32 | 0xc, 2, 0);
    TIME("its_needs, an INV", COUNT, its_needs(&its, 0, list, 18, &count); sum += count);
    made("its_step", its_step(&its, 0, &step));
    TIME("INV: its_write_memory, CWRITER, its_step", COUNT / 10, run(&its, (uint64_t)7 << 32 | 0xc, 2, 0));
    TIME("INVALL of 1,024 events, the same", 1000, run(&its, 0xd, 0, 0));
    TIME("its_save of 1,024 events", 100, its_save(&its, &unsaved));
    TIME("its_written", COUNT / 100, its_written(&its, list, 18, &count); sum += count);
    TIME("its_migrate of 1,024 events", 20, its_migrate(&its, &unsaved));
    its_free(&its);
    time_saves("its_save of one event, 64 KiB held beside", 1);
    time_saves("its_save of one event, 256 MiB held beside", 4096);
    TIME("its_new of 1 MiB, and its_free", 100, new_and_free(MIB));
    TIME("its_new of 64 GiB, and its_free", 100, new_and_free((uint64_t)64 << 30));
    time_many("one table", 0);
    time_many("512 tables", 0x10000);
    printf("(%" PRIu64 ")\n", sum & 1);
    return 0;
}
