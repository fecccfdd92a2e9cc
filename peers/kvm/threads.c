#define _GNU_SOURCE
#include "threads.h"
#include "machine.h"
#include <inttypes.h>
#include <pthread.h>
#include <sched.h>
#include <stdio.h>
#include <string.h>

#define MOST_THREADS 4
#define MOST_CALLS 64
#define LOOK 64 /* bytes that a look at memory takes */

struct call {
	char letter;
	uint64_t wait, field[4]; /* wait: ticks before it begins */
	uint64_t begin, end;
	int answer;
	uint8_t seen[LOOK];
};

static struct thread {
	pthread_t handle;
	int number, calls;
	struct call call[MOST_CALLS];
} thread[MOST_THREADS];
static int arrived;

/* A clock that all processors share. What was asked before is done as it is read, and what comes after isn't begun. */
static uint64_t clock_now(void)
{
	uint64_t now;
	__asm__ volatile("dsb sy\n\tisb\n\tmrs %0, cntvct_el0\n\tisb" : "=r"(now) : : "memory");
	return now;
}

void thread_takes(const char *line)
{
	uint64_t t, wait, field[4] = { 0 };
	char letter;
	int read = sscanf(line, "%" SCNx64 " %" SCNx64 " %c %" SCNx64 " %" SCNx64 " %" SCNx64 " %" SCNx64, &t, &wait,
			  &letter, &field[0], &field[1], &field[2], &field[3]);
	if (read < 3 || t >= MOST_THREADS || thread[t].calls == MOST_CALLS) {
		printf("! call %s", line);
		return;
	}
	struct call *call = &thread[t].call[thread[t].calls++];
	*call = (struct call){ .letter = letter, .wait = wait };
	memcpy(call->field, field, sizeof field);
}

static int make(struct call *call)
{
	const uint64_t *field = call->field;
	uint64_t none;
	uint8_t *at;
	switch (call->letter) {
	case 'S': return signal_event(field[0], field[1]);
	case 'W': return its_write(field[0], field[1]);
	case 'w': return ask(field[0], WRITE64, field[1], field[2], &none);
	case 'V': return save_tables();
	case 'L':
		at = memory_at(field[0], LOOK);
		if (at) memcpy(call->seen, at, LOOK);
		return at ? 0 : -1;
	}
	return -1;
}

static void *run(void *given)
{
	struct thread *own = given;
	cpu_set_t one;
	CPU_ZERO(&one);
	CPU_SET(own->number, &one);
	sched_setaffinity(0, sizeof one, &one);
	__atomic_add_fetch(&arrived, 1, __ATOMIC_SEQ_CST);
	while (__atomic_load_n(&arrived, __ATOMIC_SEQ_CST) < MOST_THREADS) continue;
	for (int i = 0; i < own->calls; i++) {
		struct call *call = &own->call[i];
		uint64_t from = clock_now();
		while (clock_now() - from < call->wait) continue;
		call->begin = clock_now();
		call->answer = make(call);
		call->end = clock_now();
	}
	return 0;
}

static void tell(int t, const struct call *call)
{
	printf("F %d %" PRIx64 " %" PRIx64 " %d", t, call->begin, call->end, call->answer);
	if (call->letter == 'L') putchar(' ');
	for (int i = 0; call->letter == 'L' && i < LOOK; i++) printf("%02x", call->seen[i]);
	putchar('\n');
}

void threads_go(void)
{
	arrived = 0;
	for (int t = 0; t < MOST_THREADS; t++) {
		thread[t].number = t;
		if (pthread_create(&thread[t].handle, 0, run, &thread[t])) {
			puts("! thread");
			arrived++;
			thread[t].handle = 0;
		}
	}
	for (int t = 0; t < MOST_THREADS; t++) {
		if (thread[t].handle) pthread_join(thread[t].handle, 0);
		for (int i = 0; i < thread[t].calls; i++) tell(t, &thread[t].call[i]);
		thread[t].calls = 0;
	}
}
