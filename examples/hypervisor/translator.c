/*
 * The library: the guest's ITS, and the LPI side of its redistributors. All of it is called under the
 * lock. docs/LIBRARY.md says what is called at which trap, and which bytes are copied.
 */
#include "hypervisor.h"

enum {
    NEEDS = 18,
    COMMANDS = 32768, /* as many as the longest queue has */
    MAPD = 0x8,
    MAPTI = 0xA,
    MAPI = 0xB,
    CTLR = 0x0,
    CWRITER = 0x88,
    PROPBASER = 0x70,
    PENDBASER = 0x78,
    INVLPIR = 0xA0,
    INVALLR = 0xB0,
    LPI_BITS = 16,
    CONFIG_LENGTH = (1 << LPI_BITS) - FIRST_LPI, /* a byte for each LPI */
    PENDING_FROM = FIRST_LPI / 8,                /* a bit for each interrupt */
    PENDING_LENGTH = (1 << LPI_BITS) / 8 - PENDING_FROM,
    TOLD = 16, /* so many messages and acknowledgements are printed, and so many refusals */
};
#define ADDRESS 0x000FFFFFFFFFF000u /* of GICR_PROPBASER and GICR_PENDBASER */

static struct its_handle its = ITS_NO_MACHINE;
static uint32_t told;

/* A word's text, until the next call. */
static const char *word(uint32_t list, uint32_t number)
{
    static char text[25];
    uint64_t length = 0;

    its_text(list, number, (uint8_t *)text, 24, &length);
    text[length] = 0;
    return text;
}

static void must(const char *call, uint32_t answer)
{
    if (answer != ITS_DONE)
        stop(call, answer);
}

void translator_start(void)
{
    const struct its_description_in numbers = {.vcpus = vcpus_count,
                                               .device_bits = 16,
                                               .lpi_bits = LPI_BITS,
                                               .profile = 1,
                                               .programmed = 1,
                                               .linux_guest = 1,
                                               .event_limit = 4096,
                                               .device_limit = UINT64_MAX,
                                               .memory_limit = UINT64_MAX};
    const struct its_translator_in translator = {0};
    const struct its_window_in window = {RAM, RAM_LENGTH};
    const struct its_redistributor_in redistributors[MOST_PROCESSORS] = {{0, 0, 0}};
    struct its_make_fault_out fault;

    must("its_new", its_new(&its, &numbers, &translator, 1, &window, 1, NULL, 0, redistributors, vcpus_count, NULL, 0,
                            NULL, 0, NULL, 0, &fault));
}

/*
 * What the guest has there goes into the library's copy; an address outside its RAM is passed over.
 * Ends with false where there is no memory.
 */
static bool copy_in(uint64_t address, uint64_t length)
{
    uint32_t answer = ITS_DONE;

    if (is_guest_ram(address, length))
        answer = its_write_memory(&its, address, (const uint8_t *)address, length);
    if (answer != ITS_NO_MEMORY)
        must("its_write_memory", answer);
    return answer == ITS_DONE;
}

/* Nothing that was copied in is read again: so the copy stays small, whatever the guest does. */
static void forget(void)
{
    must("its_forget", its_forget(&its, RAM, RAM_LENGTH));
}

/* A command that maps: the machine's own ITS has to bring these messages. */
static void follow(const uint64_t *command, uint32_t op)
{
    uint32_t device = (uint32_t)(command[0] >> 32);

    if (op == MAPD && command[2] >> 63)
        physical_device(device);
    else if (op == MAPTI || op == MAPI)
        physical_event(device, (uint32_t)command[1]);
}

/* What the next command reads, as the guest has it now. Ends with false where there is none, or no memory. */
static bool copy_command(uint64_t *command)
{
    struct its_stretch_out needs[NEEDS];
    uint64_t count = 0;

    must("its_needs", its_needs(&its, 0, needs, NEEDS, &count));
    if (count == 0 || !copy_in(needs[0].address, needs[0].length))
        return false;
    must("its_needs", its_needs(&its, 0, needs, NEEDS, &count));
    for (uint64_t i = 1; i < count; i++)
        if (!copy_in(needs[i].address, needs[i].length))
            return false;
    its_read_memory(&its, needs[0].address, (uint8_t *)command, 32);
    return true;
}

/* Takes one command. Where there is no room it stays, and the next write of GITS_CWRITER tries again. */
static bool step(uint32_t *concerned)
{
    uint64_t command[4] = {0};
    struct its_step_out out;
    uint32_t answer;

    if (!copy_command(command))
        return false;
    answer = its_step(&its, 0, &out);
    if (answer == ITS_FULL || answer == ITS_NO_MEMORY) {
        print("hypervisor: a command stays in the queue: %s\n", word(ITS_LIST_ANSWERS, answer));
        return false;
    }
    must("its_step", answer);
    *concerned |= (uint32_t)out.concerned[0]; /* the first word has all of MOST_PROCESSORS */
    if (out.outcome == ITS_OUTCOME_RAN) {
        counts.commands++;
        follow(command, out.op);
    } else if (out.outcome == ITS_OUTCOME_REFUSED) {
        if (counts.refused++ < TOLD)
            print("hypervisor: command 0x%x refused: %s\n", (uint64_t)out.op, word(ITS_LIST_REASONS, out.reason));
    }
    return out.outcome == ITS_OUTCOME_RAN || out.outcome == ITS_OUTCOME_REFUSED;
}

/* The queue as far as it was written, and no further for a guest that fills it without an end. */
static void take_commands(void)
{
    uint32_t concerned = 0;

    gather(~0u);
    for (int i = 0; i < COMMANDS && step(&concerned); i++)
        ;
    kick_all(concerned);
    forget();
}

/* A device's message, or the guest's own write of GITS_TRANSLATER. */
void message(uint32_t device, uint32_t event)
{
    struct its_event_out where;
    struct its_signal_out out;

    must("its_event", its_event(&its, 0, device, event, &where));
    if (where.cause == ITS_CAUSE_DELIVERED)
        gather(1u << where.vcpu);
    must("its_signal", its_signal(&its, 0, device, event, &out));
    if (out.cause == ITS_CAUSE_DELIVERED)
        kick(&vcpus[out.vcpu]);
    counts.messages++;
    counts.delivered += out.cause == ITS_CAUSE_DELIVERED;
    if (told < TOLD) {
        told++;
        print("hypervisor: device 0x%x event %u -> %s %u %u\n", (uint64_t)device, (uint64_t)event,
              word(ITS_LIST_CAUSES, out.cause), (uint64_t)out.vcpu, (uint64_t)out.intid);
    }
}

/* The LPI that comes first at a virtual processor, whose mask is weighed by its own interface. */
struct its_ack_out best(struct vcpu *vcpu)
{
    struct its_ack_out first;

    must("its_best", its_best(&its, vcpu->number, 0xFF, &first));
    return first;
}

/* The guest has acknowledged an LPI that it was shown. */
void claim(struct vcpu *vcpu, uint32_t intid)
{
    struct its_ack_out taken;

    must("its_claim", its_claim(&its, vcpu->number, intid, &taken));
    if (taken.intid != intid)
        stop("an LPI was acknowledged that wasn't pending:", intid);
    counts.claimed++;
    if (told < TOLD) {
        told++;
        print("hypervisor: processor %u acknowledged %u\n", (uint64_t)vcpu->number, (uint64_t)intid);
    }
}

static void control_access(uint32_t offset, struct access *access)
{
    if (!access->is_write) {
        must("its_read_register", its_read_register(&its, 0, offset, access->size, &access->value));
        return;
    }
    must("its_write_register", its_write_register(&its, 0, offset, access->size, access->value));
    if (offset == CTLR || (offset & ~7u) == CWRITER)
        take_commands();
}

/* Both frames. A message has 2 or 4 bytes, a register 4 or 8; what is neither reads zero. */
void translator_access(struct access *access)
{
    uint32_t offset = (uint32_t)(access->address - ITS_CONTROL);

    if (offset == FRAME + 0x40 && access->is_write && (access->size == 2 || access->size == 4))
        message(PROCESSORS_DEVICE, (uint32_t)access->value);
    else if (offset < FRAME && access->size >= 4)
        control_access(offset, access);
}

/* Where a processor's configuration table stands. */
static uint64_t configuration_table(uint32_t number)
{
    uint64_t table = 0;

    must("its_read_lpi_register", its_read_lpi_register(&its, number, PROPBASER, 8, &table));
    return table & ADDRESS;
}

/* The tables that the library reads as LPIs are turned on, or are read again. */
static void copy_tables(uint32_t number, bool is_pending)
{
    uint64_t table = configuration_table(number);

    if (!copy_in(table, CONFIG_LENGTH))
        stop("no memory for the guest's tables at", table);
    must("its_read_lpi_register", its_read_lpi_register(&its, number, PENDBASER, 8, &table));
    if (is_pending && !copy_in((table & ADDRESS) + PENDING_FROM, PENDING_LENGTH))
        stop("no memory for the guest's tables at", table);
}

/* Whether a write there, of either half too, has configurations read again. */
static bool is_read_again(uint32_t offset)
{
    return (offset & ~4u) == INVLPIR || (offset & ~4u) == INVALLR;
}

static void write_lpi_register(uint32_t number, uint32_t offset, const struct access *access)
{
    uint32_t answer = its_write_lpi_register(&its, number, offset, access->size, access->value);

    /* Out of memory LPIs stay off, and GICR_CTLR reads so. */
    if (answer != ITS_NO_MEMORY)
        must("its_write_lpi_register", answer);
    kick(&vcpus[number]);
}

/*
 * A configuration is read again for every processor that has the same table. Linux enables an LPI at the
 * processor that has it, and sends no command about it when it moves the LPI to another.
 */
static void read_again(uint32_t number, uint32_t offset, const struct access *access)
{
    gather(~0u);
    copy_tables(number, false);
    for (uint32_t other = 0; other < vcpus_count; other++)
        if (configuration_table(other) == configuration_table(number))
            write_lpi_register(other, offset, access);
}

void lpi_register_access(uint32_t number, uint32_t offset, struct access *access)
{
    if (access->size < 4)
        return;
    if (!access->is_write) {
        must("its_read_lpi_register",
             its_read_lpi_register(&its, number, offset, access->size, &access->value));
        return;
    }
    if (is_read_again(offset)) {
        read_again(number, offset, access);
    } else {
        gather(1u << number);
        if (offset == CTLR)
            copy_tables(number, access->value & 1);
        write_lpi_register(number, offset, access);
    }
    forget();
}
