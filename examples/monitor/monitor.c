/*
 * A small monitor: it plays a guest's driver, a device and a virtual processor over guest memory of its
 * own. It copies in what a step reads, and copies out what a save wrote; saves the machine while an LPI is
 * pending, and brings it up again from memory and registers.
 */
#include "its.h"

#include <inttypes.h>
#include <stdio.h>
#include <stdlib.h>
#include <string.h>

/* Where everything is in the 2 MiB of memory that the guest uses, of a window that is longer. */
enum {
    RAM = 0x80000000,
    RAM_SIZE = 0x200000,
    DEVICES = RAM,
    COLLECTIONS = RAM + 0x10000,
    QUEUE = RAM + 0x20000,
    CONFIG = RAM + 0x30000,
    PENDING_0 = RAM + 0x40000,
    PENDING_1 = RAM + 0x50000,
    TRANSLATIONS = RAM + 0xc0000
};

enum { CTLR = 0x0, CBASER = 0x80, CWRITER = 0x88, CREADR = 0x90, BASER0 = 0x100, BASER1 = 0x108 };

#define FRAMES 0x9000000000 /* of the translator */
static const struct its_window_in windows[] = {{RAM, 0x1000000000}};
static const uint64_t pending[] = {PENDING_0, PENDING_1};
static const struct its_requesters_in requesters[] = {{0x10, 0x1f, 7}};
static const struct its_translator_in translator = {.has_frames = 1, .frames = FRAMES};

/* The guest's memory. The library has a copy of it. */
static uint8_t ram[RAM_SIZE];

/* What a call answers in words. */
static const char *word(uint32_t list, uint32_t number)
{
    static char words[2][25];
    static int next;
    uint64_t count;
    char *text = words[next = 1 - next];
    memset(text, 0, 25);
    if (its_text(list, number, (uint8_t *)text, 24, &count) != ITS_DONE)
        return "no word";
    return text;
}

static void made(const char *call, uint32_t answer)
{
    if (answer != ITS_DONE) {
        printf("%s answers %s\n", call, word(ITS_LIST_ANSWERS, answer));
        exit(1);
    }
}

static struct its_description_in description(void)
{
    struct its_description_in numbers;
    memset(&numbers, 0, sizeof numbers);
    numbers.vcpus = 2;
    numbers.device_bits = 16;
    numbers.lpi_bits = 16;
    numbers.profile = 1;
    numbers.config = CONFIG;
    numbers.event_limit = UINT64_MAX;
    numbers.device_limit = UINT64_MAX;
    numbers.memory_limit = UINT64_MAX;
    return numbers;
}

/* A machine whose LPI 8192 has priority 0xa0 and is enabled: byte 0 of the configuration table. */
static void start(struct its_handle *its)
{
    struct its_description_in numbers = description();
    struct its_make_fault_out fault;
    struct its_fill_in fill = {CONFIG, 1};
    ram[CONFIG - RAM] = 0xa1;
    made("its_new", its_new(its, &numbers, &translator, 1, windows, 1, pending, 2, NULL, 0, requesters, 1, &fill, 1,
                            &ram[CONFIG - RAM], 1, &fault));
}

static void store(struct its_handle *its, uint32_t offset, uint32_t size, uint64_t value)
{
    made("its_write_register", its_write_register(its, 0, offset, size, value));
}

static uint64_t load(struct its_handle *its, uint32_t offset, uint32_t size)
{
    uint64_t value = 0;
    made("its_read_register", its_read_register(its, 0, offset, size, &value));
    return value;
}

/* Whether the guest has such memory. A stretch that it hasn't is passed over: the guest chose where. */
static int is_ram(struct its_stretch_out s)
{
    return s.address >= RAM && s.length <= RAM_SIZE && s.address - RAM <= RAM_SIZE - s.length;
}

static void copy_in(struct its_handle *its, struct its_stretch_out s)
{
    uint32_t answer;
    if (!is_ram(s))
        return;
    answer = its_write_memory(its, s.address, ram + (s.address - RAM), s.length);
    if (answer != ITS_OUTSIDE)
        made("its_write_memory", answer);
}

/* What the next step reads: the command first, and then what this command reads besides. */
static uint64_t copy_needed(struct its_handle *its)
{
    struct its_stretch_out list[18];
    uint64_t count, i;
    made("its_needs", its_needs(its, 0, list, 18, &count));
    if (count == 0)
        return 0;
    copy_in(its, list[0]);
    made("its_needs", its_needs(its, 0, list, 18, &count));
    for (i = 1; i < count; i++)
        copy_in(its, list[i]);
    return count;
}

/* The words of a report of `its run`. */
static void tell_step(const struct its_step_out *step)
{
    static const char *const names[] = {"mapd", "mapc", "mapti", NULL, "inv"};
    printf("step -> %s", word(ITS_LIST_OUTCOMES, step->outcome));
    if (step->outcome == ITS_OUTCOME_RAN && step->op >= 8 && step->op <= 12 && names[step->op - 8])
        printf(" %s", names[step->op - 8]);
    printf("\n");
}

/*
 * Takes all commands that the guest wrote: at most as many as a queue has. Each answer is told apart: at
 * ITS_NO_MEMORY the call is made again later, and at ITS_FULL the limit is raised, or the guest stopped.
 */
static void run(struct its_handle *its)
{
    struct its_step_out step;
    int steps;
    for (steps = 0; steps < 32768; steps++) {
        uint64_t stretches = copy_needed(its);
        uint32_t answer = its_step(its, 0, &step);
        if (answer == ITS_FULL) {
            printf("full: one event more\n");
            made("its_limit", its_limit(its, 1));
            continue;
        }
        made("its_step", answer);
        tell_step(&step);
        if (step.outcome == ITS_OUTCOME_IDLE || step.outcome == ITS_OUTCOME_QUEUE_FAULT)
            return;
        printf("%" PRIu64 " stretches were read, processors %" PRIx64 " are concerned\n", stretches, step.concerned[0]);
    }
}

/* Adds a stretch and its bytes to what is lent. One that the guest has no memory for is lent no bytes. */
static void lend(struct its_stretch_out s, struct its_stretch_out *list, size_t *lent, uint8_t *bytes, size_t *size)
{
    if (!is_ram(s))
        return;
    memcpy(bytes + *size, ram + (s.address - RAM), s.length);
    *size += s.length;
    list[(*lent)++] = s;
}

/*
 * Takes a command whose bytes are lent for the one step: the library holds nothing of them then. The
 * command is copied once, so what is asked about it and what is taken are the same. At most one command
 * and the LPI table of each processor are read.
 */
static void run_lent(struct its_handle *its)
{
    static uint8_t bytes[32 + 2 * 65536];
    struct its_stretch_out needed[3], list[3];
    struct its_step_out step;
    uint64_t count, i;
    size_t lent = 0, size = 0;
    made("its_needs", its_needs(its, 0, needed, 3, &count));
    if (count == 0)
        return;
    lend(needed[0], list, &lent, bytes, &size);
    if (lent == 1) {
        made("its_needs_of", its_needs_of(its, 0, bytes, 32, needed, 3, &count));
        for (i = 1; i < count; i++)
            lend(needed[i], list, &lent, bytes, &size);
    }
    made("its_step_with", its_step_with(its, 0, list, lent, bytes, size, &step));
    tell_step(&step);
    printf("%zu stretches were lent, processors %" PRIx64 " are concerned\n", lent, step.concerned[0]);
}

/* INV 7 2, of which the library has neither the command nor the byte that it reads. */
static void read_again(struct its_handle *its)
{
    static const uint64_t command[4] = {0x000000070000000c, 2, 0, 0};
    int i;
    for (i = 0; i < 32; i++)
        ram[QUEUE - RAM + 96 + i] = (uint8_t)(command[i / 8] >> 8 * (i % 8));
    ram[CONFIG - RAM] = 0xc1;
    store(its, CWRITER, 8, 128);
    run_lent(its);
}

/* What the guest's driver does: it sets the translator up and maps event 2 of device 7. */
static void drive(struct its_handle *its)
{
    static const uint64_t commands[3][4] = {
        {0x0000000700000008, 3, 0x8000000000000000 | TRANSLATIONS, 0}, /* MAPD 7, 4 bits */
        {9, 0, 0x8000000000010000, 0},                                 /* MAPC 0 to processor 1 */
        {0x000000070000000a, 0x0000200000000002, 0, 0}                 /* MAPTI 7 2 to LPI 8192 */
    };
    int i;

    store(its, BASER0, 8, 0x8107000000000200 | DEVICES);
    store(its, BASER1, 8, 0x8407000000000200 | COLLECTIONS);
    store(its, CBASER, 8, 0x8000000000000000 | QUEUE);
    store(its, CTLR, 4, 1);
    for (i = 0; i < 96; i++)
        ram[QUEUE - RAM + i] = (uint8_t)(commands[i / 32][i % 32 / 8] >> 8 * (i % 8));
    store(its, CWRITER, 8, 96);
    run(its);
}

static void tell_signal(uint32_t device, uint32_t event, const struct its_signal_out *signal)
{
    printf("signal %u %u -> ", device, event);
    if (signal->cause == ITS_CAUSE_DELIVERED)
        printf("delivered %u %u\n", signal->vcpu, signal->intid);
    else
        printf("dropped %s\n", word(ITS_LIST_CAUSES, signal->cause));
}

static void send(struct its_handle *its, uint32_t device, uint32_t event)
{
    struct its_signal_out signal;
    made("its_signal", its_signal(its, 0, device, event, &signal));
    tell_signal(device, event, &signal);
}

static void acknowledge(struct its_handle *its, uint32_t vcpu)
{
    struct its_ack_out ack;
    made("its_take", its_take(its, vcpu, &ack));
    if (ack.intid == 0)
        printf("take %u -> none\n", vcpu);
    else
        printf("take %u -> lpi %u 0x%02x\n", vcpu, ack.intid, ack.priority);
}

/* The same by priority, as a monitor does that has other interrupts too. */
static void acknowledge_best(struct its_handle *its, uint32_t vcpu, uint32_t mask)
{
    struct its_ack_out shown, best, claimed;
    made("its_show", its_show(its, vcpu, &shown));
    made("its_best", its_best(its, vcpu, mask, &best));
    made("its_claim", its_claim(its, vcpu, best.intid, &claimed));
    printf("processor %u shows %u, below 0x%02x %u, claims %u\n", vcpu, shown.intid, mask, best.intid, claimed.intid);
}

static void write_by_address(struct its_handle *its, uint32_t requester, uint64_t address)
{
    static const uint8_t bytes[4] = {2, 0, 0, 0};
    struct its_dma_out out;
    made("its_dma", its_dma(its, requester, address, bytes, 4, &out));
    printf("requester %u writes at 0x%" PRIx64 ": ", requester, address);
    if (out.outcome == ITS_ROUTE_SIGNAL)
        tell_signal(7, 2, &out.signal);
    else
        printf("route %u\n", out.outcome);
}

static void lead(struct its_handle *its, uint32_t device, uint32_t event)
{
    struct its_event_out out;
    made("its_event", its_event(its, 0, device, event, &out));
    printf("event %u %u leads to %s: lpi %u, collection %u, processor %u\n", device, event,
           word(ITS_LIST_CAUSES, out.cause), out.intid, out.collection, out.vcpu);
}

/* Copies out just what the save wrote. */
static void copy_out(struct its_handle *its)
{
    struct its_stretch_out list[16];
    uint64_t count, i;
    made("its_written", its_written(its, list, 16, &count));
    printf("a save wrote %" PRIu64 " tables\n", count);
    for (i = 0; i < count && i < 16; i++)
        if (is_ram(list[i]))
            made("its_read_memory", its_read_memory(its, list[i].address, ram + (list[i].address - RAM), list[i].length));
}

/* The pages that are held. All other bytes are zero. */
static void list_pages(struct its_handle *its)
{
    struct its_stretch_out page = {0, 0};
    printf("pages:");
    for (;;) {
        made("its_next_page", its_next_page(its, page.address + page.length, &page));
        if (page.length == 0)
            break;
        printf(" 0x%" PRIx64, page.address);
    }
    printf("\n");
}

/*
 * Saves, and goes on in a new machine that is made from the guest's memory and the registers. The pages
 * that were held are its fills. The new handle is made first, and the old one ended then: where it can't
 * be made, the old machine goes on.
 */
static void move(struct its_handle *from, struct its_handle *to)
{
    struct its_description_in numbers = description();
    struct its_translator_in registers = translator;
    struct its_fill_in fills[32];
    struct its_save_fault_out unsaved;
    struct its_make_fault_out unmade;
    struct its_stretch_out page = {0, 0};
    size_t pages = 0, size = 0;
    uint8_t *bytes = malloc(RAM_SIZE);

    if (bytes == NULL)
        exit(1);
    made("its_save", its_save(from, &unsaved));
    copy_out(from);
    for (;;) {
        made("its_next_page", its_next_page(from, page.address + page.length, &page));
        if (page.length == 0)
            break;
        memcpy(bytes + size, ram + (page.address - RAM), page.length);
        fills[pages].address = page.address;
        fills[pages++].length = page.length;
        size += page.length;
    }
    numbers.restored = 1;
    registers.ctlr = load(from, CTLR, 4);
    registers.cbaser = load(from, CBASER, 8);
    registers.creadr = load(from, CREADR, 8);
    registers.cwriter = load(from, CWRITER, 8);
    registers.baser0 = load(from, BASER0, 8);
    registers.baser1 = load(from, BASER1, 8);
    made("its_new", its_new(to, &numbers, &registers, 1, windows, 1, pending, 2, NULL, 0, requesters, 1, fills, pages, bytes,
                            size, &unmade));
    made("its_free", its_free(from));
    free(bytes);
}

static void list_pending(struct its_handle *its, uint32_t vcpu)
{
    uint32_t list[4];
    uint64_t count, i;
    made("its_pending", its_pending(its, vcpu, list, 4, &count));
    printf("processor %u has %" PRIu64 " pending:", vcpu, count);
    for (i = 0; i < count && i < 4; i++)
        printf(" %u", list[i]);
    printf("\n");
}

/* A machine whose guest programs GICR_*: LPIs go on at processor 0, and its registers are told. */
static void programmed(void)
{
    struct its_handle its = ITS_NO_MACHINE;
    struct its_description_in numbers = description();
    struct its_redistributor_in off[2], stored;
    struct its_make_fault_out fault;
    uint64_t value;

    memset(off, 0, sizeof off);
    numbers.programmed = 1;
    made("its_new", its_new(&its, &numbers, &translator, 1, windows, 1, NULL, 0, off, 2, NULL, 0, NULL, 0, NULL, 0, &fault));
    made("its_write_lpi_register", its_write_lpi_register(&its, 0, 0x70, 8, CONFIG | 15));
    made("its_write_lpi_register", its_write_lpi_register(&its, 0, 0x78, 8, 0x4000000000000000 | PENDING_0));
    made("its_write_lpi_register", its_write_lpi_register(&its, 0, 0x0, 4, 1));
    made("its_read_lpi_register", its_read_lpi_register(&its, 0, 0x0, 4, &value));
    made("its_stored_lpi_registers", its_stored_lpi_registers(&its, 0, &stored));
    printf("GICR_CTLR 0x%" PRIx64 ", stored GICR_PENDBASER 0x%" PRIx64 "\n", value, stored.pendbaser);
    made("its_free", its_free(&its));
}

/* Numbers that no machine has, and a handle that has none: each is answered, and nothing happens. */
static void misuse(struct its_handle *its, struct its_handle *freed)
{
    struct its_description_in numbers = description();
    struct its_make_fault_out fault;
    struct its_signal_out signal;
    struct its_dma_out written;
    struct its_ack_out ack;
    uint64_t value;
    uint8_t byte = 0;
    struct its_handle other = ITS_NO_MACHINE;

    printf("no such processor: %u\n", its_take(its, 512, &ack));
    printf("no such translator: %u\n", its_read_register(its, 1, CTLR, 4, &value));
    printf("no such size: %u\n", its_read_register(its, 0, CTLR, 3, &value));
    printf("no memory there: %u\n", its_write_memory(its, UINT64_MAX, &byte, 1));
    printf("no memory to forget: %u\n", its_forget(its, 0, 1));
    printf("no bytes: %u\n", its_dma(its, 0x10, RAM, NULL, 0, &written));
    printf("no such word: %u\n", its_text(ITS_LIST_TABLES, 3, NULL, 0, &value));
    send(its, UINT32_MAX, UINT32_MAX);
    printf("freed handle: %u\n", its_signal(freed, 0, 7, 2, &signal));
    printf("freed twice: %u\n", its_free(freed));
    printf("handle in use: %u\n",
           its_new(its, &numbers, &translator, 1, windows, 1, pending, 2, NULL, 0, NULL, 0, NULL, 0, NULL, 0, &fault));
    numbers.config = 0;
    printf("table outside: %u",
           its_new(&other, &numbers, &translator, 1, windows, 1, pending, 2, NULL, 0, NULL, 0, NULL, 0, NULL, 0, &fault));
    printf(", %s\n", word(ITS_LIST_MAKE_FAULTS, fault.kind));
}

int main(void)
{
    struct its_handle first = ITS_NO_MACHINE;
    struct its_handle second = ITS_NO_MACHINE;
    struct its_save_fault_out fault;

    start(&first);
    made("its_limits", its_limits(&first, 0, UINT64_MAX, UINT64_MAX));
    drive(&first);
    lead(&first, 7, 2);
    send(&first, 7, 2);
    acknowledge(&first, 1);
    acknowledge(&first, 1);
    send(&first, 7, 3);
    send(&first, 7, 2);
    list_pages(&first);
    move(&first, &second);
    printf("moved\n");
    list_pending(&second, 1);
    acknowledge(&second, 1);
    send(&second, 7, 2);
    made("its_migrate", its_migrate(&second, &fault));
    acknowledge(&second, 1);
    write_by_address(&second, 0x10, FRAMES + 0x10040);
    write_by_address(&second, 0x20, FRAMES + 0x10040);
    write_by_address(&second, 0x10, FRAMES);
    acknowledge_best(&second, 1, 0xff);
    acknowledge_best(&second, 1, 0xff);
    made("its_forget", its_forget(&second, TRANSLATIONS, 0x10000));
    list_pages(&second);
    made("its_forget", its_forget(&second, RAM, RAM_SIZE));
    list_pages(&second);
    read_again(&second);
    list_pages(&second);
    send(&second, 7, 2);
    acknowledge(&second, 1);
    misuse(&second, &first);
    made("its_free", its_free(&second));
    programmed();
    printf("done\n");
    return 0;
}
