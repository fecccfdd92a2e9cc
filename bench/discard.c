/*
 * What a DISCARD costs on a machine of 16 processors and on one of 512, by the library: the least time of
 * all rounds, for a step. In both machines LPIs are on at 16 processors, and the events go to these.
 *
 * usage: cc -O2 -I include bench/discard.c examples/monitor/heap.c LIBRARY -o discard && ./discard [ROUNDS]
 */
#include "its.h"

#include <inttypes.h>
#include <stdio.h>
#include <stdlib.h>
#include <time.h>

enum { FEW = 16, MANY = 512, EVENTS = 1024, COMMANDS = 2048, PAGE = 0x10000 };

static const uint64_t RAM = 0x80000000, CONFIG = 0x80030000, PENDING = 0x80100000, QUEUE = 0x80020000,
                      VALID = 0x8000000000000000;

struct machine {
    struct its_handle its;
    uint32_t place;
    double least;
};

static void made(const char *call, uint32_t answer)
{
    if (answer != ITS_DONE) {
        printf("%s answers %" PRIu32 "\n", call, answer);
        exit(1);
    }
}

static void ask(struct machine *machine, uint64_t first, uint64_t second, uint64_t third)
{
    const uint64_t words[4] = {first, second, third, 0};
    made("its_write_memory",
         its_write_memory(&machine->its, QUEUE + 32 * machine->place, (const uint8_t *)words, sizeof words));
    machine->place = (machine->place + 1) % COMMANDS;
}

/* Nanoseconds that each of the commands takes which were asked. */
static double run(struct machine *machine, uint32_t count)
{
    struct timespec begin, end;
    struct its_step_out step;
    uint32_t at;
    made("its_write_register", its_write_register(&machine->its, 0, 0x88, 8, 32 * (uint64_t)machine->place));
    clock_gettime(CLOCK_MONOTONIC, &begin);
    for (at = 0; at < count; at++) {
        made("its_step", its_step(&machine->its, 0, &step));
        if (step.outcome != ITS_OUTCOME_RAN)
            exit(1);
    }
    clock_gettime(CLOCK_MONOTONIC, &end);
    return ((double)(end.tv_sec - begin.tv_sec) * 1e9 + (double)(end.tv_nsec - begin.tv_nsec)) / count;
}

static void turn_on(struct its_handle *its, uint32_t vcpu)
{
    made("its_write_lpi_register", its_write_lpi_register(its, vcpu, 0x70, 8, CONFIG | 15));
    made("its_write_lpi_register",
         its_write_lpi_register(its, vcpu, 0x78, 8, (PENDING + (uint64_t)PAGE * vcpu) | (uint64_t)1 << 62));
    made("its_write_lpi_register", its_write_lpi_register(its, vcpu, 0x0, 4, 1));
}

static void start(struct machine *machine, uint32_t vcpus)
{
    static const struct its_redistributor_in off[MANY];
    static const struct its_translator_in translator;
    const struct its_window_in window = {RAM, 0x40000000};
    const struct its_description_in numbers = {
        .vcpus = vcpus, .device_bits = 16, .lpi_bits = 16, .profile = 1, .programmed = 1,
        .event_limit = UINT64_MAX, .device_limit = UINT64_MAX, .memory_limit = UINT64_MAX};
    struct its_make_fault_out fault;
    uint32_t vcpu;
    made("its_new",
         its_new(&machine->its, &numbers, &translator, 1, &window, 1, NULL, 0, off, vcpus, NULL, 0, NULL, 0, NULL, 0,
                 &fault));
    for (vcpu = 0; vcpu < FEW; vcpu++)
        turn_on(&machine->its, vcpu);
    made("its_write_register", its_write_register(&machine->its, 0, 0x100, 8, 0x8107000080000200));
    made("its_write_register", its_write_register(&machine->its, 0, 0x108, 8, 0x8407000080010200));
    made("its_write_register", its_write_register(&machine->its, 0, 0x80, 8, VALID | QUEUE | 15));
    made("its_write_register", its_write_register(&machine->its, 0, 0x0, 4, 1));
    for (vcpu = 0; vcpu < FEW; vcpu++)
        ask(machine, 9, 0, VALID | (uint64_t)vcpu << 16 | vcpu);
    ask(machine, (uint64_t)7 << 32 | 8, 9, VALID | 0x800c0000);
    run(machine, FEW + 1);
}

static void round_of(struct machine *machine)
{
    uint64_t event;
    double each;
    for (event = 0; event < EVENTS; event++)
        ask(machine, (uint64_t)7 << 32 | 0xa, (8192 + event) << 32 | event, event % FEW);
    run(machine, EVENTS);
    for (event = 0; event < EVENTS; event++)
        ask(machine, (uint64_t)7 << 32 | 0xf, event, 0);
    each = run(machine, EVENTS);
    machine->least = each < machine->least ? each : machine->least;
}

int main(int count, char **words)
{
    struct machine few = {ITS_NO_MACHINE, 0, 1e9}, many = {ITS_NO_MACHINE, 0, 1e9};
    int rounds = count > 1 ? atoi(words[1]) : 100;
    start(&few, FEW);
    start(&many, MANY);
    while (rounds-- > 0) {
        round_of(&few);
        round_of(&many);
    }
    printf("a step of DISCARD: %.0f ns with 16 processors, %.0f with 512\n", few.least, many.least);
    made("its_free", its_free(&few.its));
    made("its_free", its_free(&many.its));
    return 0;
}
