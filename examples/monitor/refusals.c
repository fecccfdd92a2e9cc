/*
 * Refuses each allocation in turn. The call that meets the refusal answers that memory ran out, and
 * the same call made again succeeds; or it does without (a list that is made asks again for less).
 * A save or a migration that meets it leaves the state, guest memory and the pages that are held as
 * they were, and each block of the host's memory. Nothing is lost of the memory that was taken.
 */
#include "its.h"

#include <stdbool.h>
#include <stdio.h>
#include <stdlib.h>
#include <string.h>

struct block {
    bool ok;
    void *at;
};

/* What can be seen of a machine, and how many blocks of the host's memory it has. */
struct seen {
    uint64_t registers[6], event[3], pages, bytes, waiting[2];
    uint32_t pending[2][4];
    long held;
};

static char refused;
static long asked, refused_one, held, refusals, saves_refused;
static bool looking;

static struct block block_at(void *at)
{
    struct block block = {at != NULL, at != NULL ? at : &refused};
    return block;
}

static bool refuses(void)
{
    return !looking && ++asked == refused_one;
}

struct block rattle_alloc(size_t size, size_t align)
{
    if (refuses())
        return block_at(NULL);
    held++;
    return block_at(malloc(size != 0 ? size : align));
}

struct block rattle_realloc(void *at, size_t used, size_t size, size_t align)
{
    (void)used;
    return block_at(refuses() ? NULL : realloc(at, size != 0 ? size : align));
}

void rattle_dealloc(void *at)
{
    held--;
    free(at);
}

/* Makes a call, and the same again where memory ran out. */
#define CALL(call)                                   \
    do {                                             \
        uint32_t answer = (call);                    \
        if (answer == ITS_NO_MEMORY) {               \
            refusals++;                              \
            answer = (call);                         \
        }                                            \
        if (answer != ITS_DONE) {                    \
            printf("%s: %u\n", #call, answer);       \
            exit(1);                                 \
        }                                            \
    } while (0)

static void must_be_done(uint32_t answer)
{
    if (answer != ITS_DONE) {
        printf("a look at the machine answers %u\n", answer);
        exit(1);
    }
}

/* A sum of the addresses and the bytes of all pages that are held. */
static void look_at_pages(struct its_handle *its, struct seen *seen)
{
    static uint8_t bytes[0x10000];
    struct its_stretch_out page = {0, 0};
    uint64_t i;
    for (;;) {
        must_be_done(its_next_page(its, page.address + page.length, &page));
        if (page.length == 0)
            return;
        must_be_done(its_read_memory(its, page.address, bytes, page.length));
        seen->pages++;
        seen->bytes = seen->bytes * 0x100000001b3 ^ page.address;
        for (i = 0; i < page.length; i++)
            seen->bytes = seen->bytes * 0x100000001b3 ^ bytes[i];
    }
}

static struct seen look(struct its_handle *its)
{
    static const uint32_t offsets[6] = {0x0, 0x80, 0x88, 0x90, 0x100, 0x108};
    struct its_event_out event;
    struct seen seen;
    uint32_t i;
    memset(&seen, 0, sizeof seen);
    looking = true;
    seen.held = held;
    for (i = 0; i < 6; i++)
        must_be_done(its_read_register(its, 0, offsets[i], i != 0 ? 8 : 4, &seen.registers[i]));
    must_be_done(its_event(its, 0, 7, 2, &event));
    seen.event[0] = event.cause;
    seen.event[1] = event.intid;
    seen.event[2] = event.vcpu;
    for (i = 0; i < 2; i++)
        must_be_done(its_pending(its, i, seen.pending[i], 4, &seen.waiting[i]));
    look_at_pages(its, &seen);
    looking = false;
    return seen;
}

/* Makes such a call, and the same again where memory ran out and all is as it was. */
static void save(const char *name, uint32_t call(struct its_handle *, struct its_save_fault_out *), struct its_handle *its)
{
    struct its_save_fault_out fault;
    struct seen before = look(its), after;
    uint32_t answer = call(its, &fault);
    if (answer == ITS_NO_MEMORY) {
        after = look(its);
        if (memcmp(&before, &after, sizeof before) != 0) {
            printf("%s without memory, at allocation %ld: something has changed\n", name, refused_one);
            exit(1);
        }
        refusals++;
        saves_refused++;
        answer = call(its, &fault);
    }
    if (answer != ITS_DONE) {
        printf("%s: %u\n", name, answer);
        exit(1);
    }
}

static void play(void)
{
    static const struct its_window_in window = {0x80000000, 0x200000};
    static const uint64_t tables[2] = {0x80040000, 0x80050000};
    static const struct its_fill_in fill = {0x80030000, 1};
    static const uint8_t byte = 0xa1;
    static const uint64_t commands[12] = {0x0000000700000008, 3, 0x80000000800c0000, 0, 9, 0, 0x8000000000010000, 0,
                                          0x000000070000000a, 0x0000200000000002, 0, 0};
    struct its_description_in numbers = {.vcpus = 2, .device_bits = 16, .lpi_bits = 16, .profile = 1, .config = 0x80030000,
                                          .event_limit = UINT64_MAX, .device_limit = UINT64_MAX, .memory_limit = UINT64_MAX};
    static const struct its_translator_in translator = {.has_frames = 1, .frames = 0x90000000};
    static const struct its_requesters_in requesters[1] = {{1, 1, 7}};
    struct its_handle its = ITS_NO_MACHINE;
    struct its_make_fault_out unmade;
    struct its_stretch_out tables_written[8];
    struct its_dma_out written;
    struct its_step_out step;
    struct its_signal_out signal;
    struct its_ack_out ack;
    uint32_t list[4];
    uint64_t count, waiting;
    int i;

    CALL(its_new(&its, &numbers, &translator, 1, &window, 1, tables, 2, NULL, 0, requesters, 1, &fill, 1, &byte, 1,
                 &unmade));
    CALL(its_write_register(&its, 0, 0x100, 8, 0x8107000080000200));
    CALL(its_write_register(&its, 0, 0x108, 8, 0x8407000080010200));
    CALL(its_write_register(&its, 0, 0x80, 8, 0x8000000080020000));
    CALL(its_write_register(&its, 0, 0, 4, 1));
    CALL(its_write_memory(&its, 0x80020000, (const uint8_t *)commands, sizeof commands));
    CALL(its_write_register(&its, 0, 0x88, 8, sizeof commands));
    for (i = 0; i < 3; i++) {
        CALL(its_step(&its, 0, &step));
        if (step.outcome != 1)
            exit(1);
    }
    CALL(its_signal(&its, 0, 7, 2, &signal));
    CALL(its_pending(&its, 1, list, 4, &waiting));
    CALL(its_dma(&its, 1, 0x801f0000, &byte, 1, &written));
    save("its_save", its_save, &its);
    CALL(its_written(&its, tables_written, 8, &count));
    if (count != 5)
        exit(1);
    save("its_migrate", its_migrate, &its);
    CALL(its_take(&its, 1, &ack));
    if (signal.cause != 0 || waiting != 1 || ack.intid != 8192)
        exit(1);
    CALL(its_free(&its));
}

int main(void)
{
    long all;
    play();
    all = asked;
    for (refused_one = 1; refused_one <= all; refused_one++) {
        asked = 0;
        play();
        if (held != 0) {
            printf("allocation %ld: %ld blocks are lost\n", refused_one, held);
            return 1;
        }
    }
    printf("%ld allocations, each refused once: %ld calls were made again, %ld of them saves that had changed nothing\n", all,
           refusals, saves_refused);
    return saves_refused > 0 ? 0 : 1;
}
