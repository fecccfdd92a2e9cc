/*
 * Commands of the guest's queue, and messages of its devices.
 *
 * A write of the control frame takes commands for a while, as long as they are short. The others,
 * and what is left, a bottom half takes in slices, between which QEMU's big lock is free. A guest that
 * waits for its commands reads GITS_CREADR again and again, and the bottom half would have to get the
 * lock from it: so what is short is better taken at once, and each such read takes a slice too.
 *
 * SPDX-License-Identifier: MIT OR Apache-2.0
 */
#include "qemu/osdep.h"
#include "qemu/log.h"
#include "qemu/main-loop.h"
#include "bacciledru.h"
#include "hw/intc/trace.h"

enum { SLICE = 64, SLICE_NS = 40000, AGAIN_NS = 100000000, COMMAND = 32 };
enum { MAPD = 0x08, MAPTI = 0x0A, MAPI = 0x0B, INVALL = 0x0D, MOVALL = 0x0E };
enum { SHORT = 4000 };             /* events that a short command may look at, some ns for each */

typedef enum Taken { TAKEN, LONG_ONE, NONE_LEFT, NO_MEMORY } Taken;

/* INVALL looks at each event at each processor, MAPD at those of a device, MOVALL at what is pending. */
static bool is_long(BacciledruIts *s, uint8_t op)
{
    return op == MOVALL || (op == MAPD && s->mapped > SHORT) ||
           (op == INVALL && s->mapped * s->gic->num_cpu > SHORT);
}

static void note(BacciledruIts *s, const struct its_step_out *out, uint64_t place,
                 const uint8_t *command)
{
    g_autofree char *reason = NULL;
    Refusal *it;

    trace_bacciledru_step(place, out->op, out->outcome, out->reason);
    if (out->outcome == ITS_OUTCOME_RAN) {
        s->counters.ran++;
        s->mapped += out->op == MAPTI || out->op == MAPI;
    }
    if (out->outcome != ITS_OUTCOME_REFUSED) {
        return;
    }
    it = &s->refusals[s->counters.remembered++ % REFUSALS];
    it->place = place;
    it->words[0] = ldq_le_p(command);
    it->words[1] = ldq_le_p(command + 8);
    it->reason = out->reason;
    reason = bacciledru_word(ITS_LIST_REASONS, out->reason);
    qemu_log_mask(LOG_GUEST_ERROR, TYPE_BACCILEDRU_ITS ": command 0x%x refused: %s\n", out->op,
                  reason);
}

/* What the command reads is copied in, as the guest has it now, and the command is taken. */
static Taken take(BacciledruIts *s, const uint8_t *command, uint64_t *concerned)
{
    struct its_stretch_out needs[MOST + 1];
    struct its_step_out out;
    uint64_t count = 0, place = bacciledru_register(s, GITS_CREADR, 8);
    uint32_t answer;

    bacciledru_done(s, "its_needs", its_needs(s->handle, 0, needs, MOST + 1, &count));
    for (uint64_t i = 1; i < count; i++) {
        if (!bacciledru_copy_in(s, needs[i].address, needs[i].length)) {
            return NO_MEMORY;
        }
    }
    answer = its_step(s->handle, 0, &out);
    if (answer == ITS_FULL) {      /* the guest waits for this command without an end */
        return NONE_LEFT;
    }
    if (!bacciledru_done(s, "its_step", answer)) {
        return NO_MEMORY;
    }
    for (int i = 0; i < WORDS; i++) {
        concerned[i] |= out.concerned[i];
    }
    note(s, &out, place, command);
    return out.outcome == ITS_OUTCOME_RAN || out.outcome == ITS_OUTCOME_REFUSED ? TAKEN :
           NONE_LEFT;
}

/* One command, but with `brief` none that may take long. */
static Taken step(BacciledruIts *s, bool brief, uint64_t *concerned)
{
    struct its_stretch_out place;
    uint8_t command[COMMAND];
    uint64_t count = 0;
    uint32_t answer;

    bacciledru_done(s, "its_needs", its_needs(s->handle, 0, &place, 1, &count));
    if (count == 0) {
        return NONE_LEFT;
    }
    bacciledru_read(s, FROM_GUEST, place.address, command, COMMAND);
    answer = its_write_memory(s->handle, place.address, command, COMMAND);
    if (answer != ITS_OUTSIDE && !bacciledru_done(s, "its_write_memory", answer)) {
        return NO_MEMORY;
    }
    return brief && is_long(s, command[0]) ? LONG_ONE : take(s, command, concerned);
}

static void take_slice(BacciledruIts *s, bool brief)
{
    uint64_t concerned[WORDS] = { 0 };
    int64_t since = get_clock();
    int count = 0;
    Taken taken;

    do {
        taken = step(s, brief, concerned);
    } while (taken == TAKEN && ++count < SLICE && get_clock() - since < SLICE_NS);
    for (int vcpu = 0; vcpu < s->gic->num_cpu; vcpu++) {
        if (concerned[vcpu / 64] >> vcpu % 64 & 1) {
            bacciledru_update_line(s, vcpu);
        }
    }
    if (taken == TAKEN || taken == LONG_ONE) {
        qemu_bh_schedule(s->queue);
    } else if (taken == NO_MEMORY) {
        timer_mod(s->again, qemu_clock_get_ns(QEMU_CLOCK_REALTIME) + AGAIN_NS);
    }
    since = get_clock() - since;
    s->counters.slices++;
    s->counters.longest_slice = MAX(s->counters.longest_slice, since);
    trace_bacciledru_slice(count, since, taken);
}

/* The guest wrote the control frame. */
void bacciledru_take_commands(BacciledruIts *s)
{
    take_slice(s, true);
}

/* While the virtual machine stands still its state was saved; it goes on as the machine does. */
static void take_later(void *opaque)
{
    if (runstate_is_running()) {
        take_slice(opaque, false);
    }
}

/* The guest waits for its commands. */
void bacciledru_take_waited(BacciledruIts *s)
{
    struct its_stretch_out place;
    uint64_t count = 0;

    bacciledru_done(s, "its_needs", its_needs(s->handle, 0, &place, 1, &count));
    if (count > 0) {
        take_later(s);
    }
}

static void try_again(void *opaque)
{
    qemu_bh_schedule(BACCILEDRU_ITS(opaque)->queue);
}

void bacciledru_queue_init(BacciledruIts *s)
{
    s->queue = qemu_bh_new(take_later, s);
    s->again = timer_new_ns(QEMU_CLOCK_REALTIME, try_again, s);
}

/*
 * A device's message. Devices finish their last requests after the virtual machine has stopped and
 * its tables were saved, and before its memory is sent: then they are saved again.
 */
int bacciledru_send_msi(GICv3ITSState *its, uint32_t event, uint16_t device)
{
    BacciledruIts *s = BACCILEDRU_ITS(its);
    struct its_signal_out out;
    g_autofree char *cause = NULL;

    if (!bacciledru_done(s, "its_signal", its_signal(s->handle, 0, device, event, &out))) {
        return -EIO;
    }
    trace_bacciledru_signal(device, event, out.cause, out.vcpu, out.intid);
    if (out.cause != ITS_CAUSE_DELIVERED) {
        cause = bacciledru_word(ITS_LIST_CAUSES, out.cause);
        qemu_log_mask(LOG_GUEST_ERROR, TYPE_BACCILEDRU_ITS ": event %u of 0x%x dropped: %s\n",
                      event, device, cause);
        return -EINVAL;
    }
    bacciledru_update_line(s, out.vcpu);
    if (!runstate_is_running()) {
        bacciledru_save(s);
    }
    return 1;
}
