/*
 * Calls through a pass, each tried until it isn't busy, and written down with its place and what it was told:
 * what threads.c makes. Calls that only look aren't of the history, and aren't written down.
 *
 * SPDX-License-Identifier: MIT OR Apache-2.0
 */
#ifndef CALLERS_H
#define CALLERS_H

#include "its_wait.h"

#include <inttypes.h>
#include <stdarg.h>
#include <stdio.h>
#include <stdlib.h>
#include <string.h>

#define CALLS 60000
#define RAM 0x80000000u
#define RAM_BYTES 0x200000u
#define TABLES 16 /* which one save writes at most here */

/* What the guest has in its memory, of which the machine has a copy. */
static uint8_t ram[RAM_BYTES];

/* A call that was made, of the thread that has it. */
struct call {
    uint64_t place;
    char asked[96];
    char replied[144];
};

/* A thread with its pass, and its calls in their order. Thread 1 of the first phase is the root. */
struct caller {
    struct its_pass pass;
    uint32_t phase;
    uint32_t number;
    uint32_t count;
    uint64_t busy;
    struct call *calls;
};

static void fail(const char *what, uint32_t code)
{
    fprintf(stderr, "%s answered %" PRIu32 "\n", what, code);
    exit(1);
}

/* Whether a call is to be made again: after ITS_BUSY, when it has been waited. */
static int again(struct caller *caller, uint32_t code, uint32_t *round)
{
    if (code != ITS_BUSY)
        return 0;
    caller->busy++;
    if (!its_wait((*round)++, 10000 * ITS_ROUNDS))
        fail("a call that waited for ten seconds", code);
    return 1;
}

/* By this pass, and by those that are split off it, the guest maps no more than this. */
static void bound(struct caller *caller, uint64_t events, uint64_t devices)
{
    uint32_t code = its_pass_limits(&caller->pass, events, devices, UINT64_MAX);

    if (code != ITS_DONE)
        fail("its_pass_limits", code);
}

/* Writes a call down that was made. */
static void note(struct caller *caller, uint64_t place, const char *replied, const char *asked, ...)
{
    struct call *call;
    va_list list;

    if (caller->count == CALLS)
        fail("too many calls: the last one", 0);
    call = &caller->calls[caller->count++];
    call->place = place;
    snprintf(call->replied, sizeof call->replied, "%s", replied);
    va_start(list, asked);
    vsnprintf(call->asked, sizeof call->asked, asked, list);
    va_end(list);
}

static void write_bytes(struct caller *caller, uint64_t address, const uint8_t *bytes, size_t length)
{
    uint64_t place = 0;
    uint32_t code, round = 0;
    char hex[2 * 64 + 1];
    size_t i;

    do
        code = its_pass_write_memory(&caller->pass, address, bytes, length, &place);
    while (again(caller, code, &round));
    if (code != ITS_DONE && code != ITS_OUTSIDE)
        fail("its_pass_write_memory", code);
    for (i = 0; i < length; i++)
        snprintf(hex + 2 * i, 3, "%02x", bytes[i]);
    note(caller, place, code == ITS_DONE ? "ok" : "outside", "poke 0x%" PRIx64 " %s", address, hex);
}

/* Reads at most 64 bytes. */
static void read_bytes(struct caller *caller, uint64_t address, size_t length)
{
    uint64_t place = 0;
    uint32_t code, round = 0;
    uint8_t bytes[64];
    char replied[sizeof "bytes " + 2 * sizeof bytes] = "bytes ";
    size_t i;

    do
        code = its_pass_read_memory(&caller->pass, address, bytes, length, &place);
    while (again(caller, code, &round));
    if (code != ITS_DONE)
        fail("its_pass_read_memory", code);
    for (i = 0; i < length; i++)
        snprintf(replied + strlen("bytes ") + 2 * i, 3, "%02x", bytes[i]);
    note(caller, place, replied, "peek 0x%" PRIx64 " %zu", address, length);
}

static void write_register(struct caller *caller, uint32_t offset, uint32_t size, uint64_t value)
{
    uint64_t place = 0;
    uint32_t code, round = 0;

    do
        code = its_pass_write_register(&caller->pass, 0, offset, size, value, &place);
    while (again(caller, code, &round));
    if (code != ITS_DONE)
        fail("its_pass_write_register", code);
    note(caller, place, "ok", "write 0x%" PRIx32 " %" PRIu32 " 0x%" PRIx64, offset, size, value);
}

static void signal_event(struct caller *caller, uint32_t device, uint32_t event)
{
    static const char *const causes[] = {"", "disabled", "no-device", "no-event", "no-collection", "lpis-off"};
    struct its_signal_out out;
    uint64_t place = 0;
    uint32_t code, round = 0;
    char replied[32];

    do
        code = its_pass_signal(&caller->pass, 0, device, event, &place, &out);
    while (again(caller, code, &round));
    if (code != ITS_DONE)
        fail("its_pass_signal", code);
    if (out.cause == ITS_CAUSE_DELIVERED)
        snprintf(replied, sizeof replied, "delivered %" PRIu32 " %" PRIu32, out.vcpu, out.intid);
    else
        snprintf(replied, sizeof replied, "dropped %s", causes[out.cause]);
    note(caller, place, replied, "signal %" PRIu32 " %" PRIu32, device, event);
}

/* Whether there was an LPI. */
static int take(struct caller *caller, uint32_t vcpu)
{
    struct its_ack_out out;
    uint64_t place = 0;
    uint32_t code, round = 0;
    char replied[32] = "none";

    do
        code = its_pass_take(&caller->pass, vcpu, &place, &out);
    while (again(caller, code, &round));
    if (code != ITS_DONE)
        fail("its_pass_take", code);
    if (out.intid != 0)
        snprintf(replied, sizeof replied, "lpi %" PRIu32 " 0x%" PRIx32, out.intid, out.priority);
    note(caller, place, replied, "take %" PRIu32, vcpu);
    return out.intid != 0;
}

static void step(struct caller *caller)
{
    static const char *const ops[16] = {
        "0x0", "movi", "0x2", "int", "clear", "sync", "0x6", "0x7",
        "mapd", "mapc", "mapti", "mapi", "inv", "invall", "movall", "discard"};
    struct its_step_out out;
    uint64_t place = 0;
    uint32_t code, round = 0;
    char replied[32];

    do
        code = its_pass_step(&caller->pass, 0, &place, &out);
    while (again(caller, code, &round));
    if (code != ITS_DONE)
        fail("its_pass_step", code);
    if (out.outcome != ITS_OUTCOME_RAN || out.op >= 16)
        fail("a step that ran no command", out.outcome);
    snprintf(replied, sizeof replied, "ran %s", ops[out.op]);
    note(caller, place, replied, "step");
}

/* At which place. */
static uint64_t save(struct caller *caller)
{
    struct its_save_fault_out fault;
    uint64_t place = 0;
    uint32_t code, round = 0;

    do
        code = its_pass_save(&caller->pass, &place, &fault);
    while (again(caller, code, &round));
    if (code != ITS_DONE)
        fail("its_pass_save", code);
    note(caller, place, "saved", "save");
    return place;
}

/* ---- looks */

/* The stretches that the next step reads. */
static size_t needs(struct caller *caller, struct its_stretch_out *list, size_t length)
{
    uint64_t place = 0, count = 0;
    uint32_t code, round = 0;

    do
        code = its_pass_needs(&caller->pass, 0, &place, list, length, &count);
    while (again(caller, code, &round));
    if (code != ITS_DONE || count == 0 || count > length)
        fail("its_pass_needs", code);
    return (size_t)count;
}

/* Copies a stretch of the guest's memory into the machine's. */
static void copy_in(struct caller *caller, const struct its_stretch_out *stretch)
{
    if (stretch->address < RAM || stretch->length > 64 || stretch->address + stretch->length > RAM + RAM_BYTES)
        fail("its_pass_needs", 0);
    write_bytes(caller, stretch->address, ram + (stretch->address - RAM), (size_t)stretch->length);
}

/* Where an event leads, which is to this virtual processor. */
static void check_lead(struct caller *caller, uint32_t device, uint32_t event, uint32_t vcpu)
{
    struct its_event_out out;
    uint64_t place = 0;
    uint32_t code, round = 0;

    do
        code = its_pass_event(&caller->pass, 0, device, event, &place, &out);
    while (again(caller, code, &round));
    if (code != ITS_DONE || out.cause != ITS_CAUSE_DELIVERED || out.vcpu != vcpu)
        fail("its_pass_event", code);
}

/* How many LPIs are pending at a virtual processor. */
static uint64_t pending(struct caller *caller, uint32_t vcpu)
{
    uint64_t place = 0, count = 0;
    uint32_t code, round = 0;

    do
        code = its_pass_pending(&caller->pass, vcpu, &place, NULL, 0, &count);
    while (again(caller, code, &round));
    if (code != ITS_DONE)
        fail("its_pass_pending", code);
    return count;
}

/* The tables that the save at a place wrote; none where another call came before they were asked for. */
static size_t written(struct caller *caller, uint64_t saved, struct its_stretch_out *list)
{
    uint64_t place = 0, count = 0;
    uint32_t code, round = 0;

    do
        code = its_pass_written(&caller->pass, &place, list, TABLES, &count);
    while (again(caller, code, &round));
    if (code != ITS_DONE || count == 0 || count > TABLES)
        fail("its_pass_written", code);
    return place == saved + 1 ? (size_t)count : 0;
}

/* The first mapped device from a DeviceID on. Whether there is one. */
static int next_device(struct caller *caller, uint32_t from, struct its_device_out *device)
{
    uint64_t place = 0, count = 0;
    uint32_t code, round = 0;

    do
        code = its_pass_list_devices(&caller->pass, 0, from, &place, device, 1, &count);
    while (again(caller, code, &round));
    if (code != ITS_DONE)
        fail("its_pass_list_devices", code);
    return count == 1;
}

#endif
