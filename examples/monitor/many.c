/*
 * A machine of 512 processors: LPIs go to some of them, on either side of where a word of `concerned`
 * ends. And one of two translators over the same memory and processors. Each answer is compared here with
 * what it has to be.
 */
#include "its.h"

#include <inttypes.h>
#include <stdio.h>
#include <stdlib.h>
#include <string.h>

enum { VCPUS = 512, TARGETS = 4, QUEUE = 0x20000, CONFIG = 0x30000, OTHER_CONFIG = 0x50000, FIRST_LPI = 8192, APART = 0x1000000 };

static const uint64_t RAM = 0x80000000, PENDING = 0x80100000, VALID = 0x8000000000000000;
static const uint32_t targets[TARGETS] = {0, 63, 64, 511};
static uint32_t slot;

static void must_be(const char *what, uint64_t is, uint64_t wanted)
{
    if (is != wanted) {
        printf("%s: %" PRIu64 ", and %" PRIu64 " was wanted\n", what, is, wanted);
        exit(1);
    }
}

static void made(const char *call, uint32_t answer)
{
    must_be(call, answer, ITS_DONE);
}

static uint32_t concerned(const struct its_step_out *step)
{
    uint32_t vcpu, count = 0;
    for (vcpu = 0; vcpu < VCPUS; vcpu++)
        count += step->concerned[vcpu / 64] >> vcpu % 64 & 1;
    return count;
}

/* Takes a command, which reads so many stretches and concerns so many processors: of one, this one. */
static void run(struct its_handle *its, uint64_t first, uint64_t second, uint64_t third, uint64_t reads, uint32_t concerns,
                uint32_t vcpu)
{
    const uint64_t words[4] = {first, second, third, 0};
    struct its_stretch_out list[VCPUS + 1];
    struct its_step_out step;
    uint64_t count;
    made("its_write_memory", its_write_memory(its, RAM + QUEUE + 32 * slot, (const uint8_t *)words, sizeof words));
    made("its_write_register", its_write_register(its, 0, 0x88, 8, 32 * ++slot));
    made("its_needs", its_needs(its, 0, list, VCPUS + 1, &count));
    must_be("stretches that a step reads", count, reads);
    made("its_step", its_step(its, 0, &step));
    must_be("a step's outcome", step.outcome, ITS_OUTCOME_RAN);
    must_be("processors that it concerns", concerned(&step), concerns);
    if (concerns == 1)
        must_be("the bit of the processor", step.concerned[vcpu / 64], (uint64_t)1 << vcpu % 64);
}

/* LPIs go on at a processor, with a configuration table, and with a pending table of its own that is empty. */
static void turn_on(struct its_handle *its, uint32_t vcpu, uint64_t config)
{
    made("its_write_lpi_register", its_write_lpi_register(its, vcpu, 0x70, 8, (RAM + config) | 15));
    made("its_write_lpi_register", its_write_lpi_register(its, vcpu, 0x78, 8, (uint64_t)1 << 62 | (PENDING + 0x10000 * vcpu)));
    made("its_write_lpi_register", its_write_lpi_register(its, vcpu, 0x0, 4, 1));
}

static void start(struct its_handle *its)
{
    static const struct its_redistributor_in off[VCPUS];
    static const struct its_translator_in translator;
    static const struct its_window_in window = {0x80000000, 0x8000000};
    const struct its_description_in numbers = {
        .vcpus = VCPUS, .device_bits = 16, .lpi_bits = 16, .profile = 1, .programmed = 1,
        .event_limit = UINT64_MAX, .device_limit = UINT64_MAX, .memory_limit = UINT64_MAX};
    struct its_make_fault_out fault;
    uint8_t enabled[TARGETS];
    uint32_t i;
    memset(enabled, 0xa1, sizeof enabled);
    made("its_new", its_new(its, &numbers, &translator, 1, &window, 1, NULL, 0, off, VCPUS, NULL, 0, NULL, 0, NULL, 0, &fault));
    made("its_write_memory", its_write_memory(its, RAM + CONFIG, enabled, sizeof enabled));
    made("its_write_memory", its_write_memory(its, RAM + OTHER_CONFIG, enabled, sizeof enabled));
    for (i = 0; i < TARGETS; i++)
        turn_on(its, targets[i], CONFIG);
    made("its_write_register", its_write_register(its, 0, 0x100, 8, 0x8107000080000200));
    made("its_write_register", its_write_register(its, 0, 0x108, 8, 0x8407000080010200));
    made("its_write_register", its_write_register(its, 0, 0x80, 8, VALID | (RAM + QUEUE)));
    made("its_write_register", its_write_register(its, 0, 0x0, 4, 1));
}

/* Event `i` of device 7 goes to target `i` as LPI 8192 + `i`, and is sent there by a command. */
static void play(struct its_handle *its)
{
    struct its_event_out event;
    struct its_ack_out ack;
    uint64_t i;
    run(its, (uint64_t)7 << 32 | 8, 3, VALID | (RAM + 0xc0000), 1, 0, 0);
    for (i = 0; i < TARGETS; i++) {
        run(its, 9, 0, VALID | (uint64_t)targets[i] << 16 | i, 1, 0, 0);
        run(its, (uint64_t)7 << 32 | 0xa, (FIRST_LPI + i) << 32 | i, i, 2, VCPUS, 0);
        run(its, (uint64_t)7 << 32 | 3, i, 0, 1, 1, targets[i]);
        made("its_event", its_event(its, 0, 7, (uint32_t)i, &event));
        must_be("where the event leads", event.vcpu, targets[i]);
        made("its_best", its_best(its, targets[i], 0xff, &ack));
        must_be("the LPI that is shown", ack.intid, FIRST_LPI + i);
        made("its_claim", its_claim(its, targets[i], ack.intid, &ack));
        must_be("the LPI that is claimed", ack.intid, FIRST_LPI + i);
    }
    must_be("one processor too many", its_take(its, VCPUS, &ack), ITS_RANGE);
}

/* A translator's own registers, tables and queue, and event 2 of device 7 to a processor of its number. */
static void drive(struct its_handle *its, uint32_t translator)
{
    const uint64_t base = RAM + APART * translator;
    const uint64_t words[12] = {(uint64_t)7 << 32 | 8,    3, VALID | (base + 0xc0000),           0, /* MAPD */
                                9,                        0, VALID | (uint64_t)translator << 16, 0, /* MAPC */
                                (uint64_t)7 << 32 | 0xa,  (uint64_t)(FIRST_LPI + translator) << 32 | 2, 0, 0};
    struct its_step_out step;
    int i;
    made("its_write_memory", its_write_memory(its, base + QUEUE, (const uint8_t *)words, sizeof words));
    made("its_write_register", its_write_register(its, translator, 0x100, 8, 0x8107000000000200 | base));
    made("its_write_register", its_write_register(its, translator, 0x108, 8, 0x8407000000000200 | (base + 0x10000)));
    made("its_write_register", its_write_register(its, translator, 0x80, 8, VALID | (base + QUEUE)));
    made("its_write_register", its_write_register(its, translator, 0x0, 4, 1));
    made("its_write_register", its_write_register(its, translator, 0x88, 8, sizeof words));
    for (i = 0; i < 3; i++) {
        made("its_step", its_step(its, translator, &step));
        must_be("a step's outcome", step.outcome, ITS_OUTCOME_RAN);
    }
}

/* The same device and event at both: each has a map of its own. By number, and by the frames' address. */
static void send(struct its_handle *its, uint32_t translator, uint64_t frames)
{
    static const uint8_t message[4] = {2, 0, 0, 0};
    struct its_signal_out signal;
    struct its_dma_out written;
    struct its_device_out device;
    struct its_ack_out ack;
    uint64_t count;
    made("its_signal", its_signal(its, translator, 7, 2, &signal));
    must_be("the processor", signal.vcpu, translator);
    made("its_take", its_take(its, translator, &ack));
    must_be("the LPI", ack.intid, FIRST_LPI + translator);
    made("its_dma", its_dma(its, 7, frames + 0x10040, message, sizeof message, &written));
    must_be("a message by address", written.outcome, ITS_ROUTE_SIGNAL);
    must_be("its LPI", written.signal.intid, FIRST_LPI + translator);
    made("its_list_devices", its_list_devices(its, translator, 0, &device, 1, &count));
    must_be("the device's table", device.itt, RAM + APART * translator + 0xc0000);
}

/* The second's collection table comes to lie over the first's: a save says whose they are. */
static void lay_over(struct its_handle *its)
{
    struct its_save_fault_out fault;
    made("its_save", its_save(its, &fault));
    made("its_write_register", its_write_register(its, 1, 0x0, 4, 0));
    made("its_write_register", its_write_register(its, 1, 0x108, 8, 0x8407000000000200 | (RAM + 0x10000)));
    must_be("a save of both tables", its_save(its, &fault), ITS_FAULT);
    must_be("why not", fault.kind, ITS_SAVE_OVERLAP);
    must_be("one table", fault.region, ITS_REGION_COLLECTIONS);
    must_be("of a translator", fault.translator, 0);
    must_be("the other table", fault.other_region, ITS_REGION_COLLECTIONS);
    must_be("of the other", fault.other_translator, 1);
}

static void two_translators(void)
{
    static const struct its_translator_in translators[3] = {
        {.has_frames = 1, .frames = 0x90000000}, {.has_frames = 1, .frames = 0x90020000}, {.has_frames = 0}};
    static const struct its_window_in window = {0x80000000, 0x8000000};
    static const struct its_requesters_in requester = {7, 7, 7};
    static const struct its_fill_in fill = {0x80030000, 2};
    static const uint8_t enabled[2] = {0xa1, 0xa1};
    const uint64_t pending[2] = {PENDING, PENDING + 0x10000};
    const struct its_description_in numbers = {
        .vcpus = 2, .device_bits = 16, .lpi_bits = 16, .profile = 1, .config = RAM + CONFIG,
        .event_limit = UINT64_MAX, .device_limit = UINT64_MAX, .memory_limit = UINT64_MAX};
    struct its_handle its = ITS_NO_MACHINE;
    struct its_make_fault_out fault;
    struct its_counters counted;
    struct its_signal_out signal;
    uint32_t i;
    must_be("three translators", its_new(&its, &numbers, translators, 3, &window, 1, pending, 2, NULL, 0, &requester, 1,
                                         &fill, 1, enabled, 2, &fault), ITS_RANGE);
    made("its_new", its_new(&its, &numbers, translators, 2, &window, 1, pending, 2, NULL, 0, &requester, 1, &fill, 1, enabled,
                            2, &fault));
    for (i = 0; i < 2; i++)
        drive(&its, i);
    for (i = 0; i < 2; i++)
        send(&its, i, translators[i].frames);
    must_be("a third translator", its_signal(&its, 2, 7, 2, &signal), ITS_RANGE);
    made("its_counters", its_counters(&its, &counted));
    must_be("signals of both", counted.signals.delivered, 4);
    lay_over(&its);
    made("its_free", its_free(&its));
}

int main(void)
{
    struct its_handle its = ITS_NO_MACHINE;
    start(&its);
    play(&its);
    turn_on(&its, 1, OTHER_CONFIG);
    run(&its, (uint64_t)7 << 32 | 0xc, 2, 0, 3, VCPUS, 0);
    made("its_free", its_free(&its));
    printf("512 processors: the last one is reached, as are those around a word's end\n");
    two_translators();
    printf("two translators: each has its own maps, and a save says whose tables lie over one another\n");
    return 0;
}
