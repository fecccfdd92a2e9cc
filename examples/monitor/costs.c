/*
 * How much processor time calls take whose cost a guest can choose: the least of the rounds. LPIs have 20 bits,
 * and all are enabled by one configuration table.
 */
#define _POSIX_C_SOURCE 199309L
#include "its.h"

#include <inttypes.h>
#include <stdio.h>
#include <stdlib.h>
#include <string.h>
#include <time.h>

enum { LPIS = 0x100000 - 8192, EVENTS = 65536, PLACES = 128, MOST = 16, FEW = 4, OTHERS = 4096 };

static const uint64_t RAM = 0x80000000, QUEUE = 0x80020000, CONFIG = 0x81000000, PENDING = 0x82000000, ITTS = 0x84000000,
                      BESIDE = 0xa0000000, VALID = 0x8000000000000000;

static uint64_t sum;
static uint32_t slot;

static double now(void)
{
    struct timespec t;
    clock_gettime(CLOCK_PROCESS_CPUTIME_ID, &t);
    return (double)t.tv_sec * 1e9 + (double)t.tv_nsec;
}

/* The least of so many rounds of so many calls. What is done before a round isn't timed. */
#define TIME(vcpus, name, rounds, count, before, call)                                     \
    do {                                                                                   \
        double least = 1e18;                                                               \
        for (int round = 0; round < (rounds); round++) {                                   \
            before;                                                                        \
            double from = now();                                                           \
            for (long i = 0; i < (count); i++) {                                           \
                call;                                                                      \
            }                                                                              \
            double each = (now() - from) / (double)(count);                                \
            least = each < least ? each : least;                                           \
        }                                                                                  \
        printf("%2u processors: %-52s %14.1f ns\n", (vcpus), (name), least);               \
    } while (0)

static void made(const char *call, uint32_t answer, uint32_t wanted)
{
    if (answer != wanted) {
        printf("%s answers %" PRIu32 "\n", call, answer);
        exit(1);
    }
}

static void start(struct its_handle *its, uint32_t vcpus)
{
    static uint8_t bytes[LPIS];
    uint64_t tables[MOST];
    struct its_description_in numbers = {.vcpus = vcpus, .device_bits = 16, .lpi_bits = 20, .profile = 1, .config = CONFIG,
                                         .event_limit = UINT64_MAX, .device_limit = UINT64_MAX, .memory_limit = UINT64_MAX};
    const struct its_translator_in translator = {0};
    struct its_window_in window = {RAM, (uint64_t)1 << 30};
    struct its_fill_in fill = {CONFIG, sizeof bytes};
    struct its_make_fault_out unmade;
    memset(bytes, 0xa1, sizeof bytes);
    for (uint32_t vcpu = 0; vcpu < vcpus; vcpu++)
        tables[vcpu] = PENDING + 0x20000 * (uint64_t)vcpu;
    made("its_new",
         its_new(its, &numbers, &translator, 1, &window, 1, tables, vcpus, NULL, 0, NULL, 0, &fill, 1, bytes, sizeof bytes,
                 &unmade),
         ITS_DONE);
    slot = 0;
    its_write_register(its, 0, 0x100, 8, 0x8107000080000200);
    its_write_register(its, 0, 0x108, 8, 0x8407000080010200);
    its_write_register(its, 0, 0x80, 8, VALID | QUEUE);
    its_write_register(its, 0, 0, 4, 1);
}

/* Puts a command into the queue's next place, and says how far the queue is written now. */
static void put(struct its_handle *its, uint64_t first, uint64_t second, uint64_t third)
{
    uint64_t words[4] = {first, second, third, 0};
    made("its_write_memory", its_write_memory(its, QUEUE + 32 * (uint64_t)slot, (const uint8_t *)words, sizeof words), ITS_DONE);
    slot = (slot + 1) % PLACES;
    made("its_write_register", its_write_register(its, 0, 0x88, 8, 32 * (uint64_t)slot), ITS_DONE);
}

static void step(struct its_handle *its)
{
    struct its_step_out out;
    made("its_step", its_step(its, 0, &out), ITS_DONE);
    if (out.outcome != ITS_OUTCOME_RAN) {
        printf("command 0x%02x has outcome %u\n", out.op, out.outcome);
        exit(1);
    }
}

static void run(struct its_handle *its, uint64_t first, uint64_t second, uint64_t third)
{
    put(its, first, second, third);
    step(its);
}

/* A device with places for 65,536 events, of which none is mapped. */
static void map_device(struct its_handle *its, uint64_t device)
{
    run(its, device << 32 | 8, 15, VALID | (ITTS + 0x80000 * device));
}

static void map_collection(struct its_handle *its, uint64_t icid, uint64_t vcpu)
{
    run(its, 9, 0, VALID | vcpu << 16 | icid);
}

/* An event of the first collection. */
static void map_event(struct its_handle *its, uint64_t device, uint64_t event, uint64_t intid)
{
    run(its, device << 32 | 0xa, intid << 32 | event, 0);
}

/* So many equal commands are put into the queue. */
static void put_each(struct its_handle *its, long count, uint64_t first, uint64_t second, uint64_t third)
{
    for (long i = 0; i < count; i++)
        put(its, first, second, third);
}

/* No event of the device is mapped any more, and the next commands map new ones. */
static void put_new_events(struct its_handle *its, uint64_t device, long count)
{
    run(its, device << 32 | 8, 0, 0);
    map_device(its, device);
    for (long event = 0; event < count; event++)
        put(its, device << 32 | 0xa, (uint64_t)(8192 + event) << 32 | (uint64_t)event, 0);
}

static void time_saves(struct its_handle *its, uint32_t vcpus, const char *name)
{
    struct its_save_fault_out unsaved;
    TIME(vcpus, name, 10, 10, , made("its_save", its_save(its, &unsaved), ITS_DONE));
}

/* One event, and then as many as one device may have. */
static void time_events(uint32_t vcpus)
{
    struct its_handle its = ITS_NO_MACHINE;
    struct its_step_out out;
    start(&its, vcpus);
    map_collection(&its, 0, vcpus - 1);
    map_collection(&its, 1, 0);
    map_device(&its, 0);
    map_device(&its, 1);
    map_event(&its, 0, 0, 8192);
    time_saves(&its, vcpus, "its_save of one event");
    for (uint64_t page = 0; page < OTHERS; page++)
        its_write_memory(&its, BESIDE + 0x10000 * page, (const uint8_t *)"its", 3);
    time_saves(&its, vcpus, "its_save of one event, 256 MiB held beside");
    its_forget(&its, BESIDE, (uint64_t)OTHERS << 16);
    for (uint64_t event = 1; event < EVENTS; event++)
        map_event(&its, 0, event, 8192 + event);
    time_saves(&its, vcpus, "its_save of 65,536 events");
    TIME(vcpus, "INVALL of a collection without events", 50, 100, put_each(&its, 100, 0xd, 0, 1), step(&its));
    TIME(vcpus, "INVALL of 65,536 events", 20, 1, put_each(&its, 1, 0xd, 0, 0), step(&its));
    TIME(vcpus, "INV", 50, 100, put_each(&its, 100, 0xc, 2, 0), step(&its));
    TIME(vcpus, "MAPTI of a new event", 50, 100, put_new_events(&its, 1, 100), step(&its));
    put_new_events(&its, 1, 1);
    made("its_limit", its_limit(&its, EVENTS), ITS_DONE);
    TIME(vcpus, "MAPTI that the limit refuses", 50, 100, , made("its_step", its_step(&its, 0, &out), ITS_FULL));
    its_free(&its);
}

static void time_best(struct its_handle *its, const char *name)
{
    struct its_signal_out signal;
    struct its_ack_out ack;
    char text[64];
    snprintf(text, sizeof text, "its_best, %s", name);
    TIME(1U, text, 10, 100000, , its_best(its, 0, 255, &ack); sum += ack.intid);
    snprintf(text, sizeof text, "its_best and its_claim, its_signal, %s", name);
    TIME(1U, text, 10, 100000, , its_best(its, 0, 255, &ack); its_claim(its, 0, ack.intid, &ack);
         its_signal(its, 0, 0, 0, &signal); sum += signal.intid);
    snprintf(text, sizeof text, "its_show, %s", name);
    TIME(1U, text, 10, 100000, , its_show(its, 0, &ack); sum += ack.intid);
}

/* One pending LPI, and then all that there are. */
static void time_pending(void)
{
    struct its_handle its = ITS_NO_MACHINE;
    struct its_signal_out signal;
    start(&its, 1);
    map_collection(&its, 0, 0);
    for (uint64_t lpi = 0; lpi < LPIS; lpi++) {
        if (lpi % EVENTS == 0)
            map_device(&its, lpi / EVENTS);
        map_event(&its, lpi / EVENTS, lpi % EVENTS, 8192 + lpi);
    }
    made("its_signal", its_signal(&its, 0, 0, 0, &signal), ITS_DONE);
    time_best(&its, "one LPI pending");
    for (uint32_t lpi = 0; lpi < LPIS; lpi++)
        made("its_signal", its_signal(&its, 0, lpi / EVENTS, lpi % EVENTS, &signal), ITS_DONE);
    time_best(&its, "1,040,384 pending");
    its_free(&its);
}

int main(void)
{
    time_pending();
    time_events(FEW);
    time_events(MOST);
    printf("(%" PRIu64 ")\n", sum & 1);
    return 0;
}
