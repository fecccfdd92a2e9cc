/*
 * How many bytes of stack each call takes, of both libraries: it is made on a thread whose stack was painted,
 * and the paint that is left is looked at right after it. A call that takes a command, or that may do one
 * thing or another, is made for each, and the most is told. With the stack of the heap's functions.
 *
 * usage: stack
 */
#define _GNU_SOURCE
#include "its.h"

#include <inttypes.h>
#include <pthread.h>
#include <stdio.h>
#include <stdlib.h>
#include <string.h>

enum { STACK = 1 << 20, VCPUS = 2, PAINT = 0xa5, RAM_BYTES = 0x200000 };

static const uint64_t RAM = 0x80000000, QUEUE = 0x80020000, CONFIG = 0x80030000, TABLES = 0x80040000;
static const uint64_t FRAMES = 0x90000000;

static struct its_handle its = ITS_NO_MACHINE, other = ITS_NO_MACHINE;
static struct its_pass root = ITS_NO_PASS, pass = ITS_NO_PASS;
static struct its_description_in numbers;
static struct its_translator_in translator;
static struct its_redistributor_in redistributors[VCPUS];
static struct its_signal_out signalled;
static struct its_dma_out written;
static struct its_event_out led;
static struct its_ack_out ack;
static struct its_step_out stepped;
static struct its_stretch_out stretches[16];
static struct its_device_out devices[4];
static struct its_mapping_out mappings[4];
static struct its_collection_out collections[4];
static struct its_save_fault_out unsaved;
static struct its_make_fault_out unmade;
static uint8_t memory[RAM_BYTES], bytes[64];
static uint64_t place, value, count;
static uint32_t code, list[64], queue_at;

/* What a thread is to do, and how deep its stack became. */
struct probe {
    void (*act)(void);
    uint8_t *stack;
    size_t depth;
};

/* What lies below the stack pointer of the function that calls others is nobody's. */
static inline __attribute__((always_inline)) uint8_t *stack_pointer(void)
{
    uint8_t *at;

#if defined(__x86_64__)
    __asm__ volatile("mov %%rsp, %0" : "=r"(at));
#elif defined(__aarch64__)
    __asm__ volatile("mov %0, sp" : "=r"(at));
#else
#error "the name of the stack pointer"
#endif
    return at;
}

static void *on_paint(void *argument)
{
    struct probe *probe = argument;
    volatile uint8_t *at = probe->stack;
    uint8_t *here = stack_pointer();

    free(malloc(64)); /* so that the heap knows this thread */
    for (; at < here; at++)
        *at = PAINT;
    probe->act();
    for (at = probe->stack; *at == PAINT; at++)
        ;
    probe->depth = (size_t)(here - (uint8_t *)at);
    return NULL;
}

static size_t depth_of(void (*act)(void))
{
    struct probe probe = {act, aligned_alloc(4096, STACK), 0};
    pthread_attr_t attributes;
    pthread_t thread;

    pthread_attr_init(&attributes);
    if (probe.stack == NULL || pthread_attr_setstack(&attributes, probe.stack, STACK) != 0 ||
        pthread_create(&thread, &attributes, on_paint, &probe) != 0)
        exit(1);
    pthread_join(thread, NULL);
    pthread_attr_destroy(&attributes);
    free(probe.stack);
    return probe.depth;
}

static void made(const char *call)
{
    if (code == ITS_DONE)
        return;
    printf("%s answers %" PRIu32 "\n", call, code);
    exit(1);
}

/* Makes a call on a painted stack, and tells its depth, or the most of that and another one's. */
static size_t tell_beside(const char *call, void (*act)(void), size_t most)
{
    size_t depth = depth_of(act);

    made(call);
    depth = depth > most ? depth : most;
    printf("%-28s %6zu\n", call, depth);
    return depth;
}

static void tell(const char *call, void (*act)(void))
{
    (void)tell_beside(call, act, 0);
}

#define CALL(name, ...) \
    static void name(void) { code = __VA_ARGS__; }

CALL(make, its_new(&its, &numbers, &translator, 1, (struct its_window_in[]){{RAM, RAM_BYTES}}, 1, NULL, 0, redistributors, VCPUS,
                   (struct its_requesters_in[]){{16, 31, 7}}, 1, NULL, 0, NULL, 0, &unmade))
CALL(restore, its_new(&other, &numbers, &translator, 1, (struct its_window_in[]){{RAM, RAM_BYTES}}, 1, NULL, 0, redistributors,
                      VCPUS, (struct its_requesters_in[]){{16, 31, 7}}, 1, (struct its_fill_in[]){{RAM, RAM_BYTES}}, 1, memory,
                      sizeof memory, &unmade))
CALL(unmake, its_free(&other))
CALL(read_register, its_read_register(&its, 0, 0x90, 8, &value))
CALL(write_register, its_write_register(&its, 0, 0x88, 8, queue_at))
CALL(enable, its_write_register(&its, 0, 0, 4, 1))
CALL(read_lpi_register, its_read_lpi_register(&its, 0, 0x70, 8, &value))
CALL(turn_on, its_write_lpi_register(&its, 0, 0, 4, 1))
CALL(invalidate, its_write_lpi_register(&its, 1, 0xb0, 8, 0))
CALL(stored, its_stored_lpi_registers(&its, 0, &redistributors[0]))
CALL(read_memory, its_read_memory(&its, RAM, memory, sizeof memory))
CALL(write_memory, its_write_memory(&its, RAM + 0x100000, memory, 0x20000))
CALL(forget, its_forget(&its, RAM + 0x100000, 0x20000))
CALL(next_page, its_next_page(&its, RAM, stretches))
CALL(send, its_signal(&its, 0, 7, 2, &signalled))
CALL(dma_message, its_dma(&its, 16, FRAMES + 65600, bytes, 4, &written))
CALL(dma_memory, its_dma(&its, 16, RAM + 0x140000, bytes, 64, &written))
CALL(event, its_event(&its, 0, 7, 2, &led))
CALL(take, its_take(&its, 0, &ack))
CALL(show, its_show(&its, 0, &ack))
CALL(best, its_best(&its, 0, 255, &ack))
CALL(claim, its_claim(&its, 0, 8192, &ack))
CALL(pending, its_pending(&its, 0, list, 64, &count))
CALL(needs, its_needs(&its, 0, stretches, 16, &count))
CALL(step, its_step(&its, 0, &stepped))
CALL(limit, its_limit(&its, 100000))
CALL(save, its_save(&its, &unsaved))
CALL(saved, its_written(&its, stretches, 16, &count))
CALL(migrate, its_migrate(&its, &unsaved))
CALL(list_devices, its_list_devices(&its, 0, 0, devices, 4, &count))
CALL(list_events, its_list_events(&its, 0, 7, 0, mappings, 4, &count))
CALL(list_collections, its_list_collections(&its, 0, 0, collections, 4, &count))
CALL(text, its_text(ITS_LIST_ANSWERS, 1, bytes, 64, &count))

CALL(share, its_share(&root, &numbers, &translator, 1, (struct its_window_in[]){{RAM, RAM_BYTES}}, 1, NULL, 0, redistributors,
                      VCPUS, (struct its_requesters_in[]){{16, 31, 7}}, 1, NULL, 0, NULL, 0, &unmade))
CALL(share_restored, its_share(&root, &numbers, &translator, 1, (struct its_window_in[]){{RAM, RAM_BYTES}}, 1, NULL, 0,
                               redistributors, VCPUS, (struct its_requesters_in[]){{16, 31, 7}}, 1,
                               (struct its_fill_in[]){{RAM, RAM_BYTES}}, 1, memory, sizeof memory, &unmade))
CALL(split, its_split(&root, &pass))
CALL(pass_limits, its_pass_limits(&pass, 100000, 100000, UINT64_MAX))
CALL(end_pass, its_pass_free(&pass))
CALL(end_root, its_pass_free(&root))
CALL(pass_send, its_pass_signal(&pass, 0, 7, 2, &place, &signalled))
CALL(pass_dma_message, its_pass_dma(&pass, 16, FRAMES + 65600, bytes, 4, &place, &written))
CALL(pass_dma_memory, its_pass_dma(&pass, 16, RAM + 0x140000, bytes, 64, &place, &written))
CALL(pass_take, its_pass_take(&pass, 0, &place, &ack))
CALL(pass_show, its_pass_show(&pass, 0, &place, &ack))
CALL(pass_best, its_pass_best(&pass, 0, 255, &place, &ack))
CALL(pass_claim, its_pass_claim(&pass, 0, 8192, &place, &ack))
CALL(pass_read_register, its_pass_read_register(&pass, 0, 0x90, 8, &place, &value))
CALL(pass_write_register, its_pass_write_register(&pass, 0, 0x88, 8, queue_at, &place))
CALL(pass_read_lpi_register, its_pass_read_lpi_register(&pass, 0, 0x70, 8, &place, &value))
CALL(pass_turn_on, its_pass_write_lpi_register(&pass, 0, 0, 4, 1, &place))
CALL(pass_invalidate, its_pass_write_lpi_register(&pass, 1, 0xb0, 8, 0, &place))
CALL(pass_enable, its_pass_write_register(&pass, 0, 0, 4, 1, &place))
CALL(pass_step, its_pass_step(&pass, 0, &place, &stepped))
CALL(pass_write_memory, its_pass_write_memory(&pass, RAM + 0x140000, bytes, 64, &place))
CALL(pass_read_memory, its_pass_read_memory(&pass, RAM + 0x140000, bytes, 64, &place))
CALL(pass_save, its_pass_save(&pass, &place, &unsaved))
CALL(pass_event, its_pass_event(&pass, 0, 7, 2, &place, &led))
CALL(pass_pending, its_pass_pending(&pass, 0, &place, list, 64, &count))
CALL(pass_stored, its_pass_stored_lpi_registers(&pass, 0, &place, &redistributors[0]))
CALL(pass_needs, its_pass_needs(&pass, 0, &place, stretches, 16, &count))
CALL(pass_saved, its_pass_written(&pass, &place, stretches, 16, &count))
CALL(pass_list_devices, its_pass_list_devices(&pass, 0, 0, &place, devices, 4, &count))
CALL(pass_list_events, its_pass_list_events(&pass, 0, 7, 0, &place, mappings, 4, &count))
CALL(pass_list_collections, its_pass_list_collections(&pass, 0, 0, &place, collections, 4, &count))

/* Each command once: device 7 with 16 events, device 8 with 32,768, collections 0 and 1. */
static const uint64_t commands[][4] = {
    {9, 0, UINT64_C(0x8000000000000000), 0},                              /* MAPC */
    {9, 0, UINT64_C(0x8000000000010001), 0},                              /* MAPC */
    {UINT64_C(0x700000008), 3, UINT64_C(0x80000000800c0000), 0},          /* MAPD */
    {UINT64_C(0x800000008), 14, UINT64_C(0x8000000080180000), 0},         /* MAPD */
    {UINT64_C(0x70000000a), UINT64_C(0x200000000002), 0, 0},              /* MAPTI */
    {UINT64_C(0x80000000b), 8200, 1, 0},                                  /* MAPI */
    {UINT64_C(0x700000003), 2, 0, 0},                                     /* INT */
    {UINT64_C(0x700000001), 2, 1, 0},                                     /* MOVI */
    {UINT64_C(0x70000000c), 2, 0, 0},                                     /* INV */
    {13, 0, 1, 0},                                                        /* INVALL */
    {14, 0, UINT64_C(0x10000), 0},                                        /* MOVALL */
    {UINT64_C(0x700000004), 2, 0, 0},                                     /* CLEAR */
    {5, 0, 0, 0},                                                         /* SYNC */
    {UINT64_C(0x80000000f), 8200, 0, 0},                                  /* DISCARD */
    {UINT64_C(0x800000008), 0, 0, 0},                                     /* MAPD with V = 0 */
    {UINT64_C(0x700000001), 2, 0, 0},                                     /* MOVI back */
    {9, 0, 1, 0},                                                         /* MAPC with V = 0 */
};

enum { COMMANDS = sizeof commands / sizeof commands[0] };

/* The guest's registers, but for GITS_CTLR and GICR_CTLR. */
static const uint64_t bases[3][2] = {
    {0x100, UINT64_C(0x8107000080000200)}, {0x108, UINT64_C(0x8407000080010200)}, {0x80, UINT64_C(0x8000000080020000)}};

static void describe(void)
{
    numbers = (struct its_description_in){.vcpus = VCPUS, .device_bits = 16, .lpi_bits = 16, .profile = 2, .programmed = 1,
                                          .event_limit = UINT64_MAX, .device_limit = UINT64_MAX, .memory_limit = UINT64_MAX};
    translator = (struct its_translator_in){.has_frames = 1, .frames = FRAMES};
    memset(redistributors, 0, sizeof redistributors);
    memset(memory, 0xa1, sizeof memory);
    queue_at = 0;
}

/* What a restore of the machine behind the handle is given. */
static void describe_restored(void)
{
    uint32_t i;

    numbers.restored = 1;
    translator.ctlr = 1;
    translator.baser0 = bases[0][1];
    translator.baser1 = bases[1][1];
    translator.cbaser = bases[2][1];
    translator.creadr = translator.cwriter = queue_at;
    for (i = 0; i < VCPUS; i++)
        its_stored_lpi_registers(&its, i, &redistributors[i]);
    read_memory();
}

static size_t deepest_needs;

/* The deepest of all commands' steps, and of what is asked before them. */
static size_t steps(int shared, void (*act)(void), void (*kick)(void), void (*ask)(void))
{
    size_t most = 0, depth;
    uint32_t i;

    deepest_needs = 0;

    for (i = 0; i < COMMANDS; i++) {
        const uint8_t *from = (const uint8_t *)commands[i];
        code = shared ? its_pass_write_memory(&pass, QUEUE + queue_at, from, 32, &place)
                      : its_write_memory(&its, QUEUE + queue_at, from, 32);
        made("a write of the queue");
        queue_at += 32;
        kick();
        depth = depth_of(ask);
        made("what a step needs");
        deepest_needs = depth > deepest_needs ? depth : deepest_needs;
        depth = depth_of(act);
        made("a step");
        if (stepped.outcome != ITS_OUTCOME_RAN) {
            printf("command %" PRIu32 " has outcome %" PRIu32 ", reason %" PRIu32 "\n", i, stepped.outcome, stepped.reason);
            exit(1);
        }
        most = depth > most ? depth : most;
    }
    return most;
}

/* The guest's driver, and each call once; before a restore of the saved machine. */
static void life_of_one(void)
{
    uint32_t i;

    for (i = 0; i < 3; i++)
        its_write_register(&its, 0, bases[i][0], 8, bases[i][1]);
    for (i = 0; i < VCPUS; i++) {
        its_write_lpi_register(&its, i, 0x70, 8, CONFIG | 15);
        its_write_lpi_register(&its, i, 0x78, 8, TABLES + 0x10000 * i);
    }
    its_write_memory(&its, CONFIG, memory, 57344);
    its_write_lpi_register(&its, 1, 0, 4, 1);
    tell_beside("its_write_lpi_register", turn_on, depth_of(invalidate));
    tell("its_read_lpi_register", read_lpi_register);
    tell("its_stored_lpi_registers", stored);
    tell_beside("its_write_register", enable, depth_of(write_register));
    tell("its_read_register", read_register);
    printf("%-28s %6zu\n", "its_step", steps(0, step, write_register, needs));
    printf("%-28s %6zu\n", "its_needs", deepest_needs);
    tell("its_limit", limit);
    tell("its_list_devices", list_devices);
    tell("its_list_events", list_events);
    tell("its_list_collections", list_collections);
    tell("its_signal", send);
    tell("its_event", event);
    tell("its_pending", pending);
    tell("its_show", show);
    tell("its_best", best);
    tell("its_claim", claim);
    send();
    tell("its_take", take);
    tell_beside("its_dma", dma_message, depth_of(dma_memory));
}

static void machine_of_one_caller(void)
{
    describe();
    size_t whole = depth_of(make);
    made("its_new");
    life_of_one();
    tell("its_write_memory", write_memory);
    tell("its_read_memory", read_memory);
    tell("its_next_page", next_page);
    tell("its_forget", forget);
    tell("its_save", save);
    tell("its_written", saved);
    tell("its_migrate", migrate);
    describe_restored();
    tell_beside("its_new", restore, whole);
    tell("its_free", unmake);
    tell("its_text", text);
}

/* The same of a pass. */
static void life_of_a_pass(void)
{
    uint32_t i;

    for (i = 0; i < 3; i++)
        its_pass_write_register(&pass, 0, bases[i][0], 8, bases[i][1], &place);
    for (i = 0; i < VCPUS; i++) {
        its_pass_write_lpi_register(&pass, i, 0x70, 8, CONFIG | 15, &place);
        its_pass_write_lpi_register(&pass, i, 0x78, 8, TABLES + 0x10000 * i, &place);
    }
    for (i = 0; i < 64; i++)
        its_pass_write_memory(&pass, CONFIG + 64 * i, memory, 64, &place);
    its_pass_write_lpi_register(&pass, 1, 0, 4, 1, &place);
    tell_beside("its_pass_write_lpi_register", pass_turn_on, depth_of(pass_invalidate));
    tell("its_pass_read_lpi_register", pass_read_lpi_register);
    tell_beside("its_pass_write_register", pass_enable, depth_of(pass_write_register));
    tell("its_pass_read_register", pass_read_register);
    printf("%-28s %6zu\n", "its_pass_step", steps(1, pass_step, pass_write_register, pass_needs));
    printf("%-28s %6zu\n", "its_pass_needs", deepest_needs);
    tell("its_pass_list_devices", pass_list_devices);
    tell("its_pass_list_events", pass_list_events);
    tell("its_pass_list_collections", pass_list_collections);
    tell("its_pass_stored_lpi_registers", pass_stored);
    size_t miss = depth_of(pass_send);
    tell_beside("its_pass_signal", pass_send, miss);
    tell("its_pass_event", pass_event);
    tell("its_pass_pending", pass_pending);
    tell("its_pass_show", pass_show);
    tell("its_pass_best", pass_best);
    tell("its_pass_claim", pass_claim);
    pass_send();
    tell("its_pass_take", pass_take);
    tell_beside("its_pass_dma", pass_dma_message, depth_of(pass_dma_memory));
}

static void machine_that_threads_share(void)
{
    describe();
    size_t whole = depth_of(share);
    made("its_share");
    tell("its_split", split);
    tell("its_pass_limits", pass_limits);
    life_of_a_pass();
    tell("its_pass_write_memory", pass_write_memory);
    tell("its_pass_read_memory", pass_read_memory);
    tell("its_pass_save", pass_save);
    tell("its_pass_written", pass_saved);
    tell("its_pass_free", end_pass);
    tell("its_pass_free, the last one", end_root);
    describe_restored();
    tell_beside("its_share", share_restored, whole);
}

int main(void)
{
    printf("%-28s %6s\n", "call", "bytes");
    machine_of_one_caller();
    machine_that_threads_share();
    return 0;
}
