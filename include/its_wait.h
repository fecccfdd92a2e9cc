/*
 * How a caller waits between two tries of a call that answered ITS_BUSY. It wants an operating system,
 * which its.h doesn't: a processor's pause, sched_yield and poll.
 *
 * SPDX-License-Identifier: MIT OR Apache-2.0
 */
#ifndef ITS_WAIT_H
#define ITS_WAIT_H

#include "its.h"

#include <poll.h>
#include <sched.h>

#ifdef __cplusplus
extern "C" {
#endif

/* Of each ITS_ROUNDS tries so many are followed by pauses alone, so many by no sleep, and one by a sleep. */
#define ITS_PAUSES 16
#define ITS_YIELDS 64
#define ITS_ROUNDS (ITS_YIELDS + 1)

static inline void its_pause(void)
{
#if defined(__x86_64__) || defined(__i386__)
    __builtin_ia32_pause();
#elif defined(__aarch64__)
    __asm__ volatile("isb" ::: "memory");
#endif
}

/*
 * Waits after try number `round`, from 0, and answers 1; at `limit` it answers 0, and hasn't waited. It
 * pauses, then yields the processor, then sleeps for a millisecond, and begins again: whoever only sleeps
 * tries too rarely to find free what others take again and again.
 *
 *     uint32_t code, round = 0;
 *     do
 *         code = its_pass_signal(&pass, device, event, &place, &out);
 *     while (code == ITS_BUSY && its_wait(round++, limit));
 *
 * A limit of ITS_YIELDS never sleeps; one of 1000 * ITS_ROUNDS waits for a second at least.
 */
static inline int its_wait(uint32_t round, uint32_t limit)
{
    uint32_t pauses;

    if (round >= limit)
        return 0;
    round %= ITS_ROUNDS;
    if (round < ITS_PAUSES) {
        for (pauses = 0; pauses <= round; pauses++)
            its_pause();
    } else if (round < ITS_YIELDS) {
        (void)sched_yield();
    } else {
        (void)poll(NULL, 0, 1);
    }
    return 1;
}

#ifdef __cplusplus
}
#endif

#endif
