/*
 * How much memory a machine of 512 processors takes, and a save: what the heap's functions have given
 * out, at most and when a call is over. Each is compared here with what it may be.
 */
#include "its.h"

#include <inttypes.h>
#include <stdbool.h>
#include <stdio.h>
#include <stdlib.h>
#include <string.h>

enum { VCPUS = 512, LPIS = 57344, PAGE = 0x10000, KIB = 1024, MIB = 0x100000, LIST = 32 };

static const uint64_t RAM = 0x80000000, CONFIG = 0x80030000, OTHER_CONFIG = 0x80050000, PENDING = 0x80100000,
                      QUEUE = 0x80020000, OTHERS = 0x90000000, VALID = 0x8000000000000000;

/* Before each block stands how large it is. */
struct header {
    size_t size, unused;
};

struct block {
    bool ok;
    void *at;
};

static char refused;
static size_t held, most;

static struct block block_at(struct header *header, size_t size)
{
    struct block block = {header != NULL, header != NULL ? (void *)(header + 1) : &refused};
    if (header != NULL) {
        header->size = size;
        held += size;
        most = held > most ? held : most;
    }
    return block;
}

struct block rattle_alloc(size_t size, size_t align)
{
    size = size != 0 ? size : align;
    return block_at(malloc(sizeof(struct header) + size), size);
}

/* The block may move, so both stand for a moment. */
struct block rattle_realloc(void *at, size_t used, size_t size, size_t align)
{
    struct header *old = (struct header *)at - 1;
    struct block block = rattle_alloc(size, align);
    if (block.ok) {
        memcpy(block.at, at, used < size ? used : size);
        held -= old->size;
        free(old);
    }
    return block;
}

void rattle_dealloc(void *at)
{
    struct header *header = (struct header *)at - 1;
    held -= header->size;
    free(header);
}

static void made(const char *call, uint32_t answer)
{
    if (answer != ITS_DONE) {
        printf("%s answers %" PRIu32 "\n", call, answer);
        exit(1);
    }
}

static size_t kib(size_t bytes)
{
    return (bytes + KIB - 1) / KIB;
}

static void must_be_at_most(const char *what, size_t is, size_t wanted)
{
    if (is > wanted) {
        printf("%s: %zu bytes, and at most %zu are wanted\n", what, is, wanted);
        exit(1);
    }
}

static void run(struct its_handle *its, uint32_t place, uint64_t first, uint64_t second, uint64_t third)
{
    const uint64_t words[4] = {first, second, third, 0};
    struct its_step_out step;
    made("its_write_memory", its_write_memory(its, QUEUE + 32 * place, (const uint8_t *)words, sizeof words));
    made("its_write_register", its_write_register(its, 0, 0x88, 8, 32 * (place + 1)));
    made("its_step", its_step(its, 0, &step));
    if (step.outcome != ITS_OUTCOME_RAN)
        exit(1);
}

/* LPIs go on at a processor, with a configuration table of its own in which each is enabled. */
static void turn_on(struct its_handle *its, uint32_t vcpu, uint64_t config)
{
    static uint8_t enabled[LPIS];
    memset(enabled, 0xa1, sizeof enabled);
    made("its_write_memory", its_write_memory(its, config, enabled, sizeof enabled));
    made("its_write_lpi_register", its_write_lpi_register(its, vcpu, 0x70, 8, config | 15));
    made("its_write_lpi_register", its_write_lpi_register(its, vcpu, 0x78, 8, (PENDING + PAGE * vcpu) | (uint64_t)1 << 62));
    made("its_write_lpi_register", its_write_lpi_register(its, vcpu, 0x0, 4, 1));
}

/* So many events of one device, 1,024 at most, go to processor 511. */
static void map_events(struct its_handle *its, uint64_t events)
{
    uint64_t event;
    made("its_write_register", its_write_register(its, 0, 0x100, 8, 0x8107000080000200));
    made("its_write_register", its_write_register(its, 0, 0x108, 8, 0x8407000080010200));
    made("its_write_register", its_write_register(its, 0, 0x80, 8, VALID | QUEUE | 15));
    made("its_write_register", its_write_register(its, 0, 0x0, 4, 1));
    run(its, 0, 9, 0, VALID | (uint64_t)(VCPUS - 1) << 16);
    run(its, 1, (uint64_t)7 << 32 | 8, 9, VALID | 0x800c0000);
    for (event = 0; event < events; event++)
        run(its, 2 + (uint32_t)event, (uint64_t)7 << 32 | 0xa, (8192 + event) << 32 | event, 0);
}

static void start(struct its_handle *its, uint64_t events)
{
    static const struct its_redistributor_in off[VCPUS];
    static const struct its_translator_in translator;
    const struct its_window_in window = {RAM, 1024 * MIB};
    const struct its_description_in numbers = {
        .vcpus = VCPUS, .device_bits = 16, .lpi_bits = 16, .profile = 1, .programmed = 1,
        .event_limit = UINT64_MAX, .device_limit = UINT64_MAX, .memory_limit = UINT64_MAX};
    struct its_make_fault_out fault;
    made("its_new", its_new(its, &numbers, &translator, 1, &window, 1, NULL, 0, off, VCPUS, NULL, 0, NULL, 0, NULL, 0, &fault));
    turn_on(its, 0, CONFIG);
    turn_on(its, VCPUS - 1, OTHER_CONFIG);
    map_events(its, events);
}

/* How many bytes the pages have that the tables of a save lie in. */
static size_t tables_pages(struct its_handle *its)
{
    struct its_stretch_out list[LIST];
    uint64_t pages[4 * LIST], count, i, page, known, found = 0;
    made("its_written", its_written(its, list, LIST, &count));
    for (i = 0; i < count && count <= LIST; i++) {
        for (page = list[i].address / PAGE; page <= (list[i].address + list[i].length - 1) / PAGE; page++) {
            for (known = 0; known < found && pages[known] != page; known++)
                ;
            if (known == found && found < 4 * LIST)
                pages[found++] = page;
        }
    }
    return found * PAGE;
}

/* A save while so much memory is held beside the tables: how much more it takes at most. */
static size_t save_beside(struct its_handle *its, size_t beside)
{
    struct its_save_fault_out fault;
    size_t before, at;
    for (at = 0; at < beside; at += PAGE)
        made("its_write_memory", its_write_memory(its, OTHERS + at, (const uint8_t *)"its", 3));
    before = held;
    most = held;
    made("its_save", its_save(its, &fault));
    printf("a save beside %zu KiB: at most %zu KiB more, %zu of them for good\n", kib(beside), kib(most - before),
           kib(held - before));
    return most - before;
}

/* A machine with so many events: how much memory it takes. */
static void machine_with(struct its_handle *its, uint64_t events)
{
    most = 0;
    start(its, events);
    printf("512 processors, LPIs on at two of them, %" PRIu64 " events: %zu KiB, at most %zu\n", events, kib(held), kib(most));
    must_be_at_most("a machine of 512 processors", most, 2 * MIB);
}

int main(void)
{
    struct its_handle its = ITS_NO_MACHINE;
    size_t tables;
    machine_with(&its, 1024);
    made("its_free", its_free(&its));
    machine_with(&its, 1);
    tables = tables_pages(&its);
    printf("a save's tables lie in %zu KiB\n", tables / KIB);
    /* Beside the pages that it writes, three of the five, it takes 129 KiB for each 256 MiB that tables lie in. */
    must_be_at_most("a save", save_beside(&its, PAGE), tables + KIB);
    must_be_at_most("a save beside 256 MiB", save_beside(&its, 256 * (size_t)MIB), tables + KIB);
    made("its_free", its_free(&its));
    if (held != 0) {
        printf("%zu bytes are lost\n", held);
        return 1;
    }
    return 0;
}
