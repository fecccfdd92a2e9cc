/*
 * How many signals threads make, and how long one takes: through passes of the machine that threads share
 * (libits_shared.a), and beside it, in the same run, through the machine of one caller (libits_c.a) under a
 * pthread mutex, a pthread spinlock and a ticket lock. Each thread has a device whose events go to a virtual
 * processor of its own. They signal alone, or beside one more thread that makes commands of another
 * collection, or saves. It prints a table.
 *
 * usage: rates [MILLISECONDS [ROUNDS [PAUSES]]]   of each half of a measurement, 100; of each cell, 3; of a
 *                                                processor between two calls of a thread, none
 *
 * A measurement has two halves of the same threads: in the first signals are counted and no clock is read;
 * in the second each is timed, with what the clock itself takes subtracted. Each cell of the table is measured
 * in so many rounds, of which that with the middle rate is told. The threads go round the processors.
 */
#define _GNU_SOURCE
#include "measuring.h"

#include "its_wait.h"

#include <inttypes.h>
#include <pthread.h>
#include <stdatomic.h>
#include <stdio.h>
#include <stdlib.h>
#include <string.h>

enum {
    MOST = 8,            /* threads that signal */
    VCPUS = MOST + 1,    /* and one for the other collection */
    EVENTS = 16,         /* of a device that signals */
    OTHERS = 1024,       /* events of the other collection */
    WIDE = 8,            /* devices of 65,536 events that MAPTI maps, one after another */
    ROUNDS = 99          /* at most */
};

static const uint64_t QUEUE = 0x80020000, CONFIG = 0x80030000, TABLES = 0x80040000;
static const uint64_t ITTS = 0x80100000, OTHER_ITT = 0x80110000, WIDE_ITTS = 0x80200000;
static const uint64_t VALID = UINT64_C(0x8000000000000000);
static const uint32_t FIRST = 16, OTHER = 100, FIRST_WIDE = 200;

enum way { PASSES, MUTEX, SPINLOCK, TICKETS, WAYS };
enum beside { ALONE, INV, MAPTI, INVALL, SAVES, BESIDES };
enum half { WARM, COUNTED, TIMED, OVER };

static const char *const besides[BESIDES] = {"alone", "INV", "MAPTI", "INVALL", "saves"};

/* A thread: what it makes, how much of it while that was counted, and how long each took when it was timed. */
struct caller {
    _Alignas(128) struct its_pass pass;
    void (*act)(struct caller *);
    uint32_t device, made;
    uint64_t count;
    double seconds;
    struct times times;
};

/* What a cell tells of the signals, and of what was made beside them. Times are in nanoseconds. */
struct cell {
    double rate, slowest, median, most99, most999, longest;
    double beside_rate;
};

/* What threads write: each has a line of the processors' caches for itself. */
static struct {
    _Alignas(128) pthread_mutex_t mutex;
    _Alignas(128) pthread_spinlock_t spinlock;
    _Alignas(128) _Atomic uint32_t ticket_next;
    _Alignas(128) _Atomic uint32_t ticket_now;
    _Alignas(128) struct its_handle its;
} at;

static enum way way;
static enum beside beside;
static _Atomic int half;
static uint32_t queue_at, pauses;

static void done(const char *what, uint32_t code)
{
    if (code == ITS_DONE)
        return;
    fprintf(stderr, "%s answers %" PRIu32 "\n", what, code);
    exit(1);
}

static void lock(void)
{
    if (way == MUTEX) {
        pthread_mutex_lock(&at.mutex);
    } else if (way == SPINLOCK) {
        pthread_spin_lock(&at.spinlock);
    } else {
        uint32_t mine = atomic_fetch_add_explicit(&at.ticket_next, 1, memory_order_relaxed);
        while (atomic_load_explicit(&at.ticket_now, memory_order_acquire) != mine)
            its_pause();
    }
}

static void unlock(void)
{
    if (way == MUTEX)
        pthread_mutex_unlock(&at.mutex);
    else if (way == SPINLOCK)
        pthread_spin_unlock(&at.spinlock);
    else
        atomic_store_explicit(&at.ticket_now, atomic_load_explicit(&at.ticket_now, memory_order_relaxed) + 1, memory_order_release);
}

/* Makes a call of a pass until it isn't busy. */
#define UNTIL_MADE(call)                                                    \
    do {                                                                    \
        uint32_t code, round = 0;                                           \
        do                                                                  \
            code = (call);                                                  \
        while (code == ITS_BUSY && its_wait(round++, 60000 * ITS_ROUNDS));  \
        done(#call, code);                                                  \
    } while (0)

/* A device's next signal. */
static void act_signal(struct caller *caller)
{
    uint32_t event = caller->made++ % EVENTS;
    struct its_signal_out out;
    uint64_t place;

    if (way == PASSES) {
        UNTIL_MADE(its_pass_signal(&caller->pass, 0, caller->device, event, &place, &out));
    } else {
        lock();
        done("its_signal", its_signal(&at.its, 0, caller->device, event, &out));
        unlock();
    }
    if (out.cause != ITS_CAUSE_DELIVERED)
        done("a signal that goes nowhere", 1);
}

/* A command: its bytes in the queue, GITS_CWRITER and the step. One critical section, where there is a lock. */
static void command(struct caller *caller, uint64_t first, uint64_t second, uint64_t third)
{
    uint64_t words[4] = {first, second, third, 0}, from = QUEUE + queue_at, place;
    const uint8_t *bytes = (const uint8_t *)words;
    struct its_step_out step;

    queue_at = (queue_at + 32) % 4096;
    if (way == PASSES) {
        UNTIL_MADE(its_pass_write_memory(&caller->pass, from, bytes, sizeof words, &place));
        UNTIL_MADE(its_pass_write_register(&caller->pass, 0, 0x88, 8, queue_at, &place));
        UNTIL_MADE(its_pass_step(&caller->pass, 0, &place, &step));
    } else {
        lock();
        done("its_write_memory", its_write_memory(&at.its, from, bytes, sizeof words));
        done("its_write_register", its_write_register(&at.its, 0, 0x88, 8, queue_at));
        done("its_step", its_step(&at.its, 0, &step));
        unlock();
    }
    if (step.outcome != ITS_OUTCOME_RAN)
        done("a step that ran no command", step.outcome + 100);
}

/* The next command of the other collection; or a save, a millisecond after the one before. */
static void act_beside(struct caller *caller)
{
    uint32_t made = caller->made++;
    struct its_save_fault_out fault;
    uint64_t place;

    if (beside == INV) {
        command(caller, (uint64_t)OTHER << 32 | 12, made % OTHERS, 0);
    } else if (beside == MAPTI) {
        uint64_t device = FIRST_WIDE + made / 65536 % WIDE, intid = 8192 + made % 1024;
        command(caller, device << 32 | 10, intid << 32 | made % 65536, MOST);
    } else if (beside == INVALL) {
        command(caller, 13, 0, MOST);
    } else if (way == PASSES) {
        sleep_for(1);
        UNTIL_MADE(its_pass_save(&caller->pass, &place, &fault));
    } else {
        sleep_for(1);
        lock();
        done("its_save", its_save(&at.its, &fault));
        unlock();
    }
}

static void set(struct caller *root, uint32_t offset, uint32_t size, uint64_t value)
{
    uint64_t place;

    if (way == PASSES)
        UNTIL_MADE(its_pass_write_register(&root->pass, 0, offset, size, value, &place));
    else
        done("its_write_register", its_write_register(&at.its, 0, offset, size, value));
}

/* The guest's driver. The lock is free. */
static void drive(struct caller *root)
{
    uint64_t i, event;

    queue_at = 0;
    set(root, 0x100, 8, UINT64_C(0x8107000080000200));
    set(root, 0x108, 8, UINT64_C(0x8407000080010200));
    set(root, 0x80, 8, VALID | QUEUE);
    set(root, 0x0, 4, 1);
    for (i = 0; i < VCPUS; i++)
        command(root, 9, 0, VALID | i << 16 | i);
    for (i = 0; i < MOST; i++) {
        command(root, (FIRST + i) << 32 | 8, 3, VALID | (ITTS + 256 * i));
        for (event = 0; event < EVENTS; event++)
            command(root, (FIRST + i) << 32 | 10, (8192 + EVENTS * i + event) << 32 | event, i);
    }
    command(root, (uint64_t)OTHER << 32 | 8, 9, VALID | OTHER_ITT);
    for (event = 0; event < OTHERS; event++)
        command(root, (uint64_t)OTHER << 32 | 10, (9216 + event) << 32 | event, MOST);
    for (i = 0; i < WIDE && beside == MAPTI; i++)
        command(root, (FIRST_WIDE + i) << 32 | 8, 15, VALID | (WIDE_ITTS + 0x80000 * i));
}

/* A machine whose LPIs are all enabled, behind the root's pass or behind the handle. */
static void start(struct caller *root)
{
    static const struct its_translator_in translator;
    static const struct its_window_in window = {0x80000000, 0x1000000};
    static const struct its_fill_in fill = {0x80030000, 57344};
    static uint8_t bytes[57344];
    struct its_description_in numbers = {.vcpus = VCPUS, .device_bits = 16, .lpi_bits = 16, .profile = 1, .config = CONFIG,
                                         .event_limit = UINT64_MAX, .device_limit = UINT64_MAX, .memory_limit = UINT64_MAX};
    struct its_make_fault_out fault;
    uint64_t pending[VCPUS], i;

    memset(bytes, 0xa1, sizeof bytes);
    for (i = 0; i < VCPUS; i++)
        pending[i] = TABLES + 0x10000 * i;
    if (way == PASSES)
        done("its_share", its_share(&root->pass, &numbers, &translator, 1, &window, 1, pending, VCPUS, NULL, 0, NULL, 0, &fill, 1, bytes, sizeof bytes, &fault));
    else
        done("its_new", its_new(&at.its, &numbers, &translator, 1, &window, 1, pending, VCPUS, NULL, 0, NULL, 0, &fill, 1, bytes, sizeof bytes, &fault));
    drive(root);
}

/* What a thread does between two calls. */
static void rest(void)
{
    uint32_t i;

    for (i = 0; i < pauses; i++)
        its_pause();
}

static void *thread(void *argument)
{
    struct caller *caller = argument;
    uint64_t from;

    while (atomic_load_explicit(&half, memory_order_relaxed) == WARM) {
        caller->act(caller);
        rest();
    }
    caller->seconds = -seconds();
    while (atomic_load_explicit(&half, memory_order_relaxed) == COUNTED) {
        caller->act(caller);
        caller->count++;
        rest();
    }
    caller->seconds += seconds();
    while (atomic_load_explicit(&half, memory_order_relaxed) == TIMED) {
        from = ticks();
        caller->act(caller);
        add_time(&caller->times, ticks() - from);
        rest();
    }
    return NULL;
}

static struct cell told(const struct caller *callers, uint32_t count)
{
    static struct times all;
    struct cell cell = {0};
    uint32_t i;

    memset(&all, 0, sizeof all);
    for (i = 0; i < count; i++) {
        double rate = (double)callers[i].count / callers[i].seconds;

        cell.rate += rate;
        cell.slowest = i == 0 || rate < cell.slowest ? rate : cell.slowest;
        add_times(&all, &callers[i].times);
    }
    cell.median = within(&all, 0.5);
    cell.most99 = within(&all, 0.99);
    cell.most999 = within(&all, 0.999);
    cell.longest = (double)all.longest * tick_ns;
    if (beside != ALONE)
        cell.beside_rate = (double)callers[count].count / callers[count].seconds;
    return cell;
}

/* One cell, once: `count` threads that signal, and one more where it isn't alone. */
static struct cell measured(uint32_t count, uint32_t milliseconds)
{
    static struct caller callers[MOST + 1], root;
    uint32_t i, all = count + (beside != ALONE);
    pthread_t threads[MOST + 1];

    memset(callers, 0, sizeof callers);
    start(&root);
    atomic_store(&half, WARM);
    for (i = 0; i < all; i++) {
        callers[i].act = i < count ? act_signal : act_beside;
        callers[i].device = FIRST + i;
        if (way == PASSES)
            done("its_split", its_split(&root.pass, &callers[i].pass));
        while (i < count && callers[i].made < EVENTS)
            act_signal(&callers[i]); /* so that the cache has its translations */
        if (start_on(processor_at(i), &threads[i], thread, &callers[i]) != 0)
            done("pthread_create", 1);
    }
    sleep_for(10);
    for (i = COUNTED; i <= OVER; i++) {
        atomic_store(&half, (int)i);
        sleep_for(i < OVER ? milliseconds : 0);
    }
    for (i = 0; i < all; i++)
        pthread_join(threads[i], NULL);
    for (i = 0; i < all && way == PASSES; i++)
        done("its_pass_free", its_pass_free(&callers[i].pass));
    done("the end", way == PASSES ? its_pass_free(&root.pass) : its_free(&at.its));
    return told(callers, count);
}

static int by_rate(const void *a, const void *b)
{
    const struct cell *x = a, *y = b;

    return (x->rate > y->rate) - (x->rate < y->rate);
}

/* A cell of the table: a rate, times, and the rate of what was made beside. */
static void print_cell(struct cell cell)
{
    char texts[4][32];

    printf(" %.2f, %.2f; %s, %s, %s, %s", cell.rate / 1e6, cell.slowest / 1e6, shown(cell.median, texts[0]), shown(cell.most99, texts[1]),
           shown(cell.most999, texts[2]), shown(cell.longest, texts[3]));
    if (beside != ALONE)
        printf("; %.*f", cell.beside_rate < 99950 ? 1 : 0, cell.beside_rate / 1e3);
    printf(" |");
    fflush(stdout);
}

static struct cell middle_of(uint32_t count, uint32_t milliseconds, uint32_t rounds)
{
    struct cell cells[ROUNDS];
    uint32_t round;

    for (round = 0; round < rounds; round++)
        cells[round] = measured(count, milliseconds);
    qsort(cells, rounds, sizeof cells[0], by_rate);
    return cells[rounds / 2];
}

static void print_head(void)
{
    uint64_t from = ticks(), i;

    for (i = 0; i < 1000; i++)
        rest();
    printf("Million signals a second, of all threads and of the slowest; the time of a signal in the middle, of 99%% and of\n"
           "99.9%% at most, and the longest; thousand commands or saves a second beside them. %.0f ns between two calls of\n"
           "a thread. A read of the clock takes %.0f ns, which the times don't have.\n\n"
           "| Beside | Threads | Passes | Mutex | Spinlock | Ticket lock |\n|---|---|---|---|---|---|\n",
           (double)(ticks() - from) * tick_ns / 1000, (double)clock_cost * tick_ns);
}

/* A number of the command line, or another one. */
static uint32_t number_of(const char *word, uint32_t other)
{
    return word != NULL ? (uint32_t)strtoul(word, NULL, 10) : other;
}

int main(int argc, char **argv)
{
    uint32_t milliseconds = number_of(argc > 1 ? argv[1] : NULL, 100), rounds = number_of(argc > 2 ? argv[2] : NULL, 3);
    uint32_t count;

    pauses = number_of(argc > 3 ? argv[3] : NULL, 0);
    if (milliseconds == 0 || rounds == 0 || rounds > ROUNDS)
        done("milliseconds from 1 on and 1 to 99 rounds: what was asked", 1);
    pthread_spin_init(&at.spinlock, PTHREAD_PROCESS_PRIVATE);
    look_at_clock();
    print_head();
    for (beside = ALONE; beside < BESIDES; beside++)
        for (count = 1; count <= MOST; count *= 2) {
            printf("| %s | %" PRIu32 " |", besides[beside], count);
            for (way = PASSES; way < WAYS; way++)
                print_cell(middle_of(count, milliseconds, rounds));
            printf("\n");
        }
    return 0;
}
