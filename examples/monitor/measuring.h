/*
 * A clock, counts of how many calls took how long, and a processor for each thread. Who includes it defines
 * _GNU_SOURCE first.
 *
 * SPDX-License-Identifier: MIT OR Apache-2.0
 */
#ifndef MEASURING_H
#define MEASURING_H

#include <pthread.h>
#include <sched.h>
#include <stdint.h>
#include <stdio.h>
#include <time.h>

/* Times below SMALL are counted to the tick, and from there on in PARTS steps for each doubling. */
enum { SMALL = 128, PARTS = 64, BUCKETS = PARTS * 57 + SMALL };

struct times {
    uint64_t longest, counts[BUCKETS];
};

/* What two reads of the clock take with nothing between them, and how long a tick is. */
static uint64_t clock_cost;
static double tick_ns;

static double seconds(void)
{
    struct timespec t;

    clock_gettime(CLOCK_MONOTONIC, &t);
    return (double)t.tv_sec + (double)t.tv_nsec / 1e9;
}

/* A clock of which one read ends a call's time and begins the next one's. */
static inline uint64_t ticks(void)
{
#if defined(__x86_64__)
    __builtin_ia32_lfence();
    return __builtin_ia32_rdtsc();
#elif defined(__aarch64__)
    uint64_t now;
    __asm__ volatile("isb\n\tmrs %0, cntvct_el0" : "=r"(now)::"memory");
    return now;
#else
    struct timespec t;
    clock_gettime(CLOCK_MONOTONIC, &t);
    return (uint64_t)t.tv_sec * 1000000000 + (uint64_t)t.tv_nsec;
#endif
}

static void look_at_clock(void)
{
    double from = seconds();
    uint64_t first = ticks(), last = first, now;
    uint32_t i;

    clock_cost = UINT64_MAX;
    for (i = 0; i < 1000000; i++) {
        now = ticks();
        if (now - last < clock_cost)
            clock_cost = now - last;
        last = now;
    }
    while (seconds() - from < 0.2)
        ;
    tick_ns = (seconds() - from) * 1e9 / (double)(ticks() - first);
}

static inline void add_time(struct times *times, uint64_t time)
{
    uint32_t shift;

    time = time > clock_cost ? time - clock_cost : 0;
    shift = time < SMALL ? 0 : 57 - (uint32_t)__builtin_clzll(time);
    times->counts[PARTS * shift + (uint32_t)(time >> shift)]++;
    if (time > times->longest)
        times->longest = time;
}

/* Adds the times of another thread. */
static void add_times(struct times *to, const struct times *from)
{
    uint32_t i;

    for (i = 0; i < BUCKETS; i++)
        to->counts[i] += from->counts[i];
    if (from->longest > to->longest)
        to->longest = from->longest;
}

/* The nanoseconds that this share of the calls stays within. */
static double within(const struct times *times, double share)
{
    uint64_t all = 0, seen = 0;
    uint32_t bucket, shift;

    for (bucket = 0; bucket < BUCKETS; bucket++)
        all += times->counts[bucket];
    for (bucket = 0; bucket < BUCKETS - 1; bucket++) {
        seen += times->counts[bucket];
        if ((double)seen >= share * (double)all)
            break;
    }
    shift = bucket < SMALL ? 0 : bucket / PARTS - 1;
    return tick_ns * (double)((uint64_t)(bucket - PARTS * shift) << shift);
}

/* A time, with three digits and its unit. Where no call was made there is none. */
static const char *shown(double ns, char *text)
{
    const char *unit = ns < 999.5 ? "ns" : ns < 999500 ? "\u00b5s" : "ms";
    double value = ns < 999.5 ? ns : ns < 999500 ? ns / 1e3 : ns / 1e6;

    if (ns == 0)
        return "none";
    sprintf(text, "%.*f %s", ns < 999.5 || value >= 99.95 ? 0 : value >= 9.995 ? 1 : 2, value, unit);
    return text;
}

static void sleep_for(uint32_t milliseconds)
{
    struct timespec t = {milliseconds / 1000, (long)(milliseconds % 1000) * 1000000};

    nanosleep(&t, NULL);
}

/* The processors that this program may use: of these the one at `number`, round and round. */
static int processor_at(uint32_t number)
{
    cpu_set_t usable;
    int processor = 0;

    if (sched_getaffinity(0, sizeof usable, &usable) != 0)
        return 0;
    number %= (uint32_t)CPU_COUNT(&usable);
    while (!CPU_ISSET(processor, &usable) || number-- != 0)
        processor++;
    return processor;
}

/* Starts a thread on one processor. It answers as pthread_create does. */
static int start_on(int processor, pthread_t *thread, void *(*body)(void *), void *argument)
{
    pthread_attr_t attributes;
    cpu_set_t one;
    int status;

    CPU_ZERO(&one);
    CPU_SET(processor, &one);
    pthread_attr_init(&attributes);
    status = pthread_attr_setaffinity_np(&attributes, sizeof one, &one);
    if (status == 0)
        status = pthread_create(thread, &attributes, body, argument);
    pthread_attr_destroy(&attributes);
    return status;
}

#endif
