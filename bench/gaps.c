/*
 * How often a processor is taken away from threads that do nothing but read the clock: what no latency of a
 * signal can be below on this machine. Then the same with an atomic addition to one word between two readings.
 * Four threads, a second each time; a gap is the time between two readings of one thread.
 *
 * usage: cc -O2 -pthread bench/gaps.c -o gaps && ./gaps
 */
#include <inttypes.h>
#include <pthread.h>
#include <stdatomic.h>
#include <stdint.h>
#include <stdio.h>
#include <time.h>

enum { THREADS = 4 };

struct lane {
    pthread_t thread;
    int adds; /* whether it adds to the word too */
    uint64_t readings, over_2_us, over_5_us, most;
};

static _Atomic uint64_t word;

static uint64_t now(void)
{
    struct timespec time;

    clock_gettime(CLOCK_MONOTONIC, &time);
    return (uint64_t)time.tv_sec * 1000000000 + (uint64_t)time.tv_nsec;
}

static void *read_clock(void *opaque)
{
    struct lane *lane = opaque;
    uint64_t begin = now(), last = begin;

    while (last - begin < 1000000000) {
        if (lane->adds) {
            atomic_fetch_add(&word, 1);
        }
        uint64_t next = now(), gap = next - last;

        lane->over_2_us += gap > 2000;
        lane->over_5_us += gap > 5000;
        lane->most = gap > lane->most ? gap : lane->most;
        lane->readings++;
        last = next;
    }
    return NULL;
}

int main(void)
{
    for (int adds = 0; adds < 2; adds++) {
        struct lane lanes[THREADS] = { 0 };

        for (int i = 0; i < THREADS; i++) {
            lanes[i].adds = adds;
            if (pthread_create(&lanes[i].thread, NULL, read_clock, &lanes[i])) {
                return 1;
            }
        }
        for (int i = 0; i < THREADS; i++) {
            pthread_join(lanes[i].thread, NULL);
            printf("%s: %" PRIu64 " readings, gaps over 2 us %" PRIu64 ", over 5 us %" PRIu64 ", the longest %"
                   PRIu64 " ns\n", adds ? "clock and word" : "clock", lanes[i].readings, lanes[i].over_2_us,
                   lanes[i].over_5_us, lanes[i].most);
        }
    }
    return 0;
}
