/*
 * Where tables may lie: the windows of all RAM, and those that the library's machine has.
 *
 * SPDX-License-Identifier: MIT OR Apache-2.0
 */
#include "qemu/osdep.h"
#include "qemu/error-report.h"
#include "qapi/error.h"
#include "bacciledru.h"

/* Of more than 16 windows the two with the least between them become one. */
static void join_closest(BacciledruIts *s)
{
    struct its_window_in *windows = s->windows;
    size_t least = 0;
    uint64_t gap, narrowest = UINT64_MAX;

    for (size_t i = 0; i + 1 < s->windows_len; i++) {
        gap = windows[i + 1].base - windows[i].base - windows[i].length;
        if (gap < narrowest) {
            narrowest = gap;
            least = i;
        }
    }
    windows[least].length = windows[least + 1].base + windows[least + 1].length -
                            windows[least].base;
    memmove(&windows[least + 1], &windows[least + 2],
            (s->windows_len - least - 2) * sizeof(*windows));
    s->windows_len--;
}

/* Windows stay in order and apart. They only grow: where memory went there is no RAM to be read. */
void bacciledru_note_window(BacciledruIts *s, uint64_t base, uint64_t end)
{
    struct its_window_in *windows = s->windows;
    size_t from = 0, to;

    while (from < s->windows_len && windows[from].base + windows[from].length < base) {
        from++;
    }
    for (to = from; to < s->windows_len && windows[to].base <= end; to++) {
        if (windows[to].base <= base && end <= windows[to].base + windows[to].length) {
            return;
        }
        base = MIN(base, windows[to].base);
        end = MAX(end, windows[to].base + windows[to].length);
    }
    memmove(&windows[from + 1], &windows[to], (s->windows_len - to) * sizeof(*windows));
    windows[from] = (struct its_window_in) { base, end - base };
    s->windows_len += 1 + from - to;
    s->wider = true;
    if (s->windows_len > WINDOWS) {
        join_closest(s);
    }
}

/* From `at` on, before `end`: up to where one window of the machine has it, or none has. */
static uint64_t run_of(BacciledruIts *s, uint64_t at, uint64_t end, bool *had)
{
    *had = false;
    for (size_t i = 0; i < s->had_len; i++) {
        uint64_t base = s->had[i].base;

        if (base > at) {
            end = MIN(end, base);
        } else if (at - base < s->had[i].length) {
            *had = true;
            return MIN(end, base + s->had[i].length);
        }
    }
    return end;
}

/* Whether each window of RAM is one of the machine, or has no byte that one of these has. */
static bool are_apart(BacciledruIts *s)
{
    for (size_t i = 0; i < s->windows_len; i++) {
        uint64_t base = s->windows[i].base, end = base + s->windows[i].length;
        bool had;

        if (run_of(s, base, end, &had) != end) {
            return false;
        }
    }
    return true;
}

/* Another window of the machine. */
static bool add_one(BacciledruIts *s, uint64_t base, uint64_t length)
{
    struct its_make_fault_out fault;
    uint32_t answer;

    if (s->had_len == WINDOWS) {
        return false;
    }
    answer = its_add_window(s->handle, base, length, &fault);
    if (!bacciledru_done(s, "its_add_window", answer)) {
        return false;
    }
    s->had[s->had_len++] = (struct its_window_in) { base, length };
    s->counters.added++;
    return true;
}

/* What the machine has no window for becomes windows of its own, in place, whatever its state is. */
static bool add_missing(BacciledruIts *s)
{
    for (size_t i = 0; i < s->windows_len; i++) {
        uint64_t at = s->windows[i].base, end = at + s->windows[i].length, next;
        bool had;

        for (; at < end; at = next) {
            next = run_of(s, at, end, &had);
            if (!had && !add_one(s, at, next - at)) {
                return false;
            }
        }
    }
    return true;
}

/* The machine's windows grow: its state is saved, and it is made anew from that. */
static bool make_anew(BacciledruIts *s, Error **errp)
{
    if (!bacciledru_save_inside(s, errp)) {
        return false;
    }
    bacciledru_keep_registers(s);
    if (!bacciledru_make(s, FROM_LIBRARY, errp)) {
        return false;
    }
    s->counters.widened++;
    return true;
}

/*
 * Memory was added. A window that grows is made anew, so that a table may lie across the place where
 * it did; of a state that can't be saved it stays as it is, with another beside it.
 */
void bacciledru_widen(BacciledruIts *s)
{
    Error *error = NULL;

    if ((are_apart(s) && add_missing(s)) || make_anew(s, &error) || add_missing(s)) {
        s->wider = false;
        error_free(error);
    } else {
        warn_reportf_err(error, "tables can't lie in memory that was added now: ");
    }
}
