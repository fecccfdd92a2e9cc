/*
 * The machine's own ITS. The guest's devices are the machine's, and their messages go to it. Each event
 * that the guest maps in the library's translator is mapped here to an LPI of the hypervisor's own,
 * which tells device and event apart. Nothing is unmapped here: the library drops what the guest
 * doesn't have.
 */
#include "hypervisor.h"

enum {
    CTLR = 0x0,
    TYPER = 0x8,
    CBASER = 0x80,
    CWRITER = 0x88,
    CREADR = 0x90,
    BASER = 0x100,
    PROPBASER = 0x70, /* of the redistributor */
    PENDBASER = 0x78,
};
enum { SYNC = 0x5, MAPD = 0x8, MAPC = 0x9, MAPTI = 0xA };
enum { EVENTS = 1024, DEVICES = 32, EVENT_BITS = 8, PAGE = 0x10000 };
#define VALID (1ull << 63)
#define SHARED (1ull << 10 | 7ull << 59) /* of GITS_BASER: inner shareable, write-back */

static uint8_t tables[2][16 * PAGE] __attribute__((aligned(PAGE)));
static uint8_t translations[DEVICES][16 << EVENT_BITS] __attribute__((aligned(PAGE)));
static uint8_t configuration[PAGE] __attribute__((aligned(PAGE)));
static uint8_t pending[PAGE] __attribute__((aligned(PAGE)));
static uint64_t queue[PAGE / 8] __attribute__((aligned(PAGE)));

static uint32_t devices[DEVICES];
static struct { uint32_t device, event; } events[EVENTS];
static uint32_t devices_count, events_count;

static uint64_t get(uint32_t offset)
{
    return device_read(ITS_CONTROL + offset, 8);
}

static void set(uint32_t offset, uint64_t value)
{
    device_write(ITS_CONTROL + offset, 8, value);
}

static void command(uint64_t a, uint64_t b, uint64_t c)
{
    uint64_t at = get(CWRITER), words[4] = {a, b, c, 0};

    for (int i = 0; i < 4; i++)
        queue[at / 8 + (uint64_t)i] = words[i];
    BARRIER();
    set(CWRITER, (at + 32) % PAGE);
    while (get(CREADR) != get(CWRITER))
        if (get(CREADR) & 1)
            stop("the machine's ITS doesn't take a command", a);
}

/* How commands name processor 0: by its number or by its frames. */
static uint64_t first_processor(void)
{
    return get(TYPER) >> 19 & 1 ? REDISTRIBUTORS : 0;
}

static void sync(void)
{
    command(SYNC, 0, first_processor());
}

/* The tables that it asks for, in pages of 64 KiB: those of devices and of collections. */
static void give_tables(void)
{
    for (uint32_t i = 0; i < 8; i++) {
        uint64_t baser = get(BASER + 8 * i), kind = baser >> 56 & 7;
        uint64_t entry = (baser >> 48 & 31) + 1, bits = get(TYPER) >> 13 & 31;
        uint64_t pages = kind == 1 ? ((entry << (bits + 1)) + PAGE - 1) / PAGE : 1;

        if (kind != 1 && kind != 4)
            continue;
        if (pages > 16)
            pages = 16; /* devices above these stay without a table here */
        set(BASER + 8 * i, VALID | SHARED | (uint64_t)tables[kind == 4] | 2ull << 8 | (pages - 1));
    }
}

void physical_its_start(void)
{
    for (uint32_t i = 0; i < PAGE; i++)
        configuration[i] = 0xA1;
    BARRIER();
    device_write(REDISTRIBUTORS + PROPBASER, 8, (uint64_t)configuration | 15);
    device_write(REDISTRIBUTORS + PENDBASER, 8, (uint64_t)pending | 1ull << 62);
    device_write(REDISTRIBUTORS, 4, 1); /* GICR_CTLR: LPIs on */
    give_tables();
    set(CBASER, VALID | (uint64_t)queue | (PAGE / 4096 - 1));
    set(CWRITER, 0);
    device_write(ITS_CONTROL + CTLR, 4, 1);
    command(MAPC, 0, VALID | first_processor());
    sync();
}

static bool is_device(uint32_t device)
{
    for (uint32_t i = 0; i < devices_count; i++)
        if (devices[i] == device)
            return true;
    return false;
}

/* The guest mapped a device. Of its events the first 256 are brought. */
void physical_device(uint32_t device)
{
    if (device == PROCESSORS_DEVICE || devices_count == DEVICES || is_device(device))
        return;
    command(MAPD | (uint64_t)device << 32, EVENT_BITS - 1, VALID | (uint64_t)translations[devices_count]);
    sync();
    devices[devices_count++] = device;
}

void physical_event(uint32_t device, uint32_t event)
{
    if (!is_device(device) || event >> EVENT_BITS || events_count == EVENTS)
        return;
    for (uint32_t i = 0; i < events_count; i++)
        if (events[i].device == device && events[i].event == event)
            return;
    command(MAPTI | (uint64_t)device << 32, event | (uint64_t)(FIRST_LPI + events_count) << 32, 0);
    sync();
    events[events_count].device = device;
    events[events_count++].event = event;
}

/* Which message an LPI of the machine is. */
bool physical_message(uint32_t intid, uint32_t *device, uint32_t *event)
{
    uint32_t at = intid - FIRST_LPI;

    if (at >= events_count)
        return false;
    *device = events[at].device;
    *event = events[at].event;
    return true;
}
