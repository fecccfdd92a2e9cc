/*
 * A monitor whose threads call one machine at once: two device threads signal and write data beside, a
 * thread for each of four virtual processors acknowledges, one puts commands into the queue, copies in what
 * each needs and steps, and the tables are saved while they run. Each reply is written down with its place,
 * and all are printed in the order of their places, behind a script of the same calls: what `its check` reads.
 *
 * usage: threads [SIGNALS]   how many signals each device makes at least; 500 without it
 */
#include "callers.h"

#include <pthread.h>
#include <stdatomic.h>

#define VCPUS 4
#define DEVICES 2
#define EVENTS 16
#define THREADS (DEVICES + VCPUS + 2)
#define LPIS (DEVICES * EVENTS)
#define QUEUE 0x80020000u
#define CONFIG 0x80030000u
#define ITTS 0x800c0000u
#define DATA 0x80100000u
#define QUEUE_BYTES 0x1000u

static atomic_uint devices_left = DEVICES;
static atomic_uint saves_made, saves_told;
static uint32_t signals = 500;

/* The guest puts a command into its queue at an offset, and the monitor takes it. The offset after it. */
static uint32_t command(struct caller *caller, uint32_t at, uint64_t dw0, uint64_t dw1, uint64_t dw2)
{
    uint64_t words[4] = {dw0, dw1, dw2, 0};
    struct its_stretch_out list[2];
    size_t i, count;

    for (i = 0; i < 32; i++)
        ram[QUEUE - RAM + at + i] = (uint8_t)(words[i / 8] >> 8 * (i % 8));
    at = (at + 32) % QUEUE_BYTES;
    write_register(caller, 0x88, 8, at);
    (void)needs(caller, list, 2);
    copy_in(caller, &list[0]); /* so that the command is known */
    count = needs(caller, list, 2);
    for (i = 1; i < count; i++)
        copy_in(caller, &list[i]);
    step(caller);
    return at;
}

/* Devices 16 and 17 with their events, of which each leads to one of four collections. */
static uint32_t drive(struct caller *root)
{
    uint32_t at = 0, device, event, vcpu;

    write_register(root, 0x100, 8, UINT64_C(0x8107000080000200));
    write_register(root, 0x108, 8, UINT64_C(0x8407000080010200));
    write_register(root, 0x80, 8, UINT64_C(0x8000000000000000) | QUEUE);
    write_register(root, 0x0, 4, 1);
    for (vcpu = 0; vcpu < VCPUS; vcpu++)
        at = command(root, at, 9, 0, UINT64_C(0x8000000000000000) | (uint64_t)vcpu << 16 | vcpu);
    for (device = 0; device < DEVICES; device++) {
        at = command(root, at, (uint64_t)(16 + device) << 32 | 8, 3, UINT64_C(0x8000000000000000) | (ITTS + 256 * device));
        for (event = 0; event < EVENTS; event++)
            at = command(root, at, (uint64_t)(16 + device) << 32 | 10,
                         (uint64_t)(8192 + EVENTS * device + event) << 32 | event, event % VCPUS);
    }
    return at;
}

/* So many signals, and more until the tables were saved beside them. */
static void *device_thread(void *argument)
{
    struct caller *caller = argument;
    uint32_t device = caller->number - 1, i, j;
    uint8_t data[8];

    for (i = 0; i < signals || (atomic_load(&saves_made) == 0 && caller->count < CALLS - 1000); i++) {
        if (i % 8 == 0) {
            for (j = 0; j < sizeof data; j++)
                data[j] = (uint8_t)(i + j);
            write_bytes(caller, DATA + 4096 * device + i % 512, data, sizeof data);
        }
        signal_event(caller, 16 + device, i % EVENTS);
    }
    atomic_fetch_sub(&devices_left, 1);
    return NULL;
}

static void *vcpu_thread(void *argument)
{
    struct caller *caller = argument;
    uint32_t vcpu = caller->number - 1 - DEVICES;
    unsigned last = DEVICES;

    for (;;) {
        unsigned left = atomic_load(&devices_left);
        if (!take(caller, vcpu)) {
            if (left == 0 && last == 0)
                return NULL;
            if (caller->count > CALLS - 1000)
                return NULL;
            if (pending(caller, vcpu) == 0)
                (void)poll(NULL, 0, 1);
        }
        last = left;
    }
}

static uint32_t queue_at;

/* Events move from collection to collection, and configurations are read again. */
static void *command_thread(void *argument)
{
    struct caller *caller = argument;
    uint32_t i;

    for (i = 0; atomic_load(&devices_left) != 0 && caller->count < CALLS - 1000; i++) {
        uint64_t device = 16 + i % DEVICES, event = i / DEVICES % EVENTS;
        if (i % 3 == 0) {
            queue_at = command(caller, queue_at, device << 32 | 12, event, 0);
        } else {
            queue_at = command(caller, queue_at, device << 32 | 1, event, (event + i) % VCPUS);
            check_lead(caller, (uint32_t)device, (uint32_t)event, (uint32_t)((event + i) % VCPUS));
        }
        (void)sched_yield();
    }
    return NULL;
}

static void *saving_thread(void *argument)
{
    struct caller *caller = argument;
    struct its_stretch_out tables[TABLES];

    do {
        if (written(caller, save(caller), tables) != 0)
            atomic_fetch_add(&saves_told, 1);
        atomic_fetch_add(&saves_made, 1);
        (void)poll(NULL, 0, 2);
    } while (atomic_load(&devices_left) != 0);
    return NULL;
}

/* All is at rest: what is mapped, and the tables of a save, of which the beginnings are read. */
static void look_around(struct caller *root)
{
    struct its_stretch_out tables[TABLES];
    struct its_device_out device;
    uint32_t from = 0, i;
    size_t count;

    for (i = 0; next_device(root, from, &device); i++) {
        if (device.device != 16 + i || device.event_bits != 4 || device.itt != ITTS + 256 * i)
            fail("its_pass_list_devices", device.device);
        from = device.device + 1;
    }
    if (i != DEVICES)
        fail("its_pass_list_devices", i);
    count = written(root, save(root), tables);
    if (count == 0)
        fail("its_pass_written", 0);
    while (count-- > 0)
        read_bytes(root, tables[count].address, tables[count].length < 64 ? (size_t)tables[count].length : 64);
}

static struct caller caller_of(uint32_t phase, uint32_t number)
{
    struct caller caller = {ITS_NO_PASS, phase, number, 0, 0, NULL};

    caller.calls = calloc(CALLS, sizeof *caller.calls);
    if (caller.calls == NULL)
        fail("calloc", 0);
    return caller;
}

static void print_thread(const struct caller *caller, uint32_t from, uint32_t to)
{
    uint32_t i;

    printf("thread\n");
    for (i = from; i < to; i++)
        printf("%s\n", caller->calls[i].asked);
}

struct line {
    const struct caller *caller;
    const struct call *call;
    uint32_t phase;
};

static int by_place(const void *a, const void *b)
{
    const struct line *x = a, *y = b;

    return (x->call->place > y->call->place) - (x->call->place < y->call->place);
}

/* The description, as its_share was given it. */
static void print_description(void)
{
    uint32_t vcpu, lpi;

    printf("vcpus %d\nshards 64\nwindow 0x80000000 0x200000\nconfig 0x%x\n", VCPUS, CONFIG);
    for (vcpu = 0; vcpu < VCPUS; vcpu++)
        printf("pending %" PRIu32 " 0x%x\n", vcpu, 0x80040000u + 0x10000u * vcpu);
    printf("bytes 0x%x ", CONFIG);
    for (lpi = 0; lpi < LPIS; lpi++)
        printf("a1");
    printf("\n");
}

/* Of the root the calls before `driven` are the first phase, those after it the last. */
static void print_all(const struct caller *root, uint32_t driven, const struct caller *callers)
{
    struct line *lines = calloc((size_t)(THREADS + 1) * CALLS, sizeof *lines);
    size_t count = 0, i;
    uint32_t k, n, vcpu;

    if (lines == NULL)
        fail("calloc", 0);
    print_description();
    printf("phase\n");
    print_thread(root, 0, driven);
    printf("phase\n");
    for (k = 0; k < THREADS; k++)
        print_thread(&callers[k], 0, callers[k].count);
    printf("phase\n");
    print_thread(root, driven, root->count);
    printf("end\ntrace\nleg 1\n");
    for (n = 0; n < root->count; n++)
        lines[count++] = (struct line){root, &root->calls[n], n < driven ? 1 : 3};
    for (k = 0; k < THREADS; k++)
        for (n = 0; n < callers[k].count; n++)
            lines[count++] = (struct line){&callers[k], &callers[k].calls[n], 2};
    qsort(lines, count, sizeof *lines, by_place);
    for (i = 0; i < count; i++)
        printf("%" PRIu64 " %" PRIu32 ".%" PRIu32 " %s -> %s\n", lines[i].call->place, lines[i].phase,
               lines[i].caller->number, lines[i].call->asked, lines[i].call->replied);
    for (vcpu = 0; vcpu < VCPUS; vcpu++)
        printf("vcpu %" PRIu32 " pending none\n", vcpu);
    printf("done\n");
    free(lines);
}

static void share(struct its_pass *root)
{
    static const struct its_translator_in translator;
    static const struct its_window_in window = {RAM, RAM_BYTES};
    static const struct its_fill_in fill = {CONFIG, LPIS};
    struct its_description_in numbers = {0};
    struct its_make_fault_out fault;
    uint64_t pending[VCPUS];
    uint8_t bytes[LPIS];
    uint32_t code, i;

    numbers.vcpus = VCPUS;
    numbers.device_bits = 16;
    numbers.lpi_bits = 16;
    numbers.profile = 1;
    numbers.config = CONFIG;
    numbers.event_limit = UINT64_MAX;
    numbers.device_limit = UINT64_MAX;
    numbers.memory_limit = UINT64_MAX;
    for (i = 0; i < VCPUS; i++)
        pending[i] = 0x80040000u + 0x10000u * i;
    memset(bytes, 0xa1, sizeof bytes);
    memset(ram + (CONFIG - RAM), 0xa1, sizeof bytes);
    code = its_share(root, &numbers, &translator, 1, &window, 1, pending, VCPUS, NULL, 0, NULL, 0, &fill, 1, bytes, LPIS,
                     &fault);
    if (code != ITS_DONE)
        fail("its_share", code);
}

int main(int argc, char **argv)
{
    static void *(*const bodies[THREADS])(void *) = {device_thread, device_thread, vcpu_thread, vcpu_thread,
                                                     vcpu_thread, vcpu_thread, command_thread, saving_thread};
    struct caller root = caller_of(1, 1), callers[THREADS];
    pthread_t threads[THREADS];
    uint32_t driven, i, code;
    uint64_t busy = 0;

    if (argc > 1)
        signals = (uint32_t)strtoul(argv[1], NULL, 10);
    share(&root.pass);
    bound(&root, LPIS, DEVICES);
    queue_at = drive(&root);
    driven = root.count;
    for (i = 0; i < THREADS; i++) {
        callers[i] = caller_of(2, i + 1);
        code = its_split(&root.pass, &callers[i].pass);
        if (code != ITS_DONE)
            fail("its_split", code);
    }
    for (i = 0; i < THREADS; i++)
        if (pthread_create(&threads[i], NULL, bodies[i], &callers[i]) != 0)
            fail("pthread_create", i);
    for (i = 0; i < THREADS; i++)
        pthread_join(threads[i], NULL);
    for (i = 0; i < VCPUS; i++)
        while (take(&root, i))
            ;
    look_around(&root);
    print_all(&root, driven, callers);
    code = its_pass_free(&root.pass);
    for (i = 0; i < THREADS && code == ITS_DONE; i++) {
        busy += callers[i].busy;
        free(callers[i].calls);
        code = its_pass_free(&callers[i].pass);
    }
    if (code != ITS_DONE)
        fail("its_pass_free", code);
    free(root.calls);
    fprintf(stderr, "busy tries: %" PRIu64 ", saves whose tables were told: %u of %u\n", busy, atomic_load(&saves_told),
            atomic_load(&saves_made));
    return 0;
}
