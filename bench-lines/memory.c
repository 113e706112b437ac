/* The memory of the bench: each of its functions writes a call's line, and reads the answer's. */
#include "lines.h"
#include <errno.h>
#include <inttypes.h>
#include <stdlib.h>
#include <string.h>

/* Whether anything was written: before that, each register holds 0. */
static atomic_bool is_written;

/* Whether the answer to this thread's call is this one, and not A. Any other one is a fault. */
static bool is_done(const char *answer, const char *wanted)
{
    if (!answer)
        return false;
    bool is_wanted = strcmp(answer, wanted) == 0;
    if (!is_wanted && strcmp(answer, "A") != 0)
        fail_answer(tmwatch_thread(), shown(answer, strlen(answer)), "");
    end_call(tmwatch_thread());
    return is_wanted;
}

void check_abort(unsigned thread, const char *answer)
{
    if (!answer)
        return;
    if (strcmp(answer, "A") != 0)
        fail_answer(thread, shown(answer, strlen(answer)), "");
    end_call(thread);
}

/* Says once that a register doesn't begin with 0. */
static void check_start(unsigned thread, uint64_t value)
{
    bool is_pending;
    if (!is_written && value != 0 && !atomic_exchange(&is_written, true))
        fprintf(stderr, "thread %u: register %c is %" PRIu64 " before anything was written. --setup must set every register to 0\n", thread,
                call_of(thread, &is_pending)[2], value);
}

/* Whether the answer to this thread's call has a value, and is not A. */
static bool has_value(const char *answer, uint64_t *value)
{
    unsigned thread = tmwatch_thread();
    char *end = NULL;
    if (!answer || strcmp(answer, "A") == 0)
        return is_done(answer, "");
    bool is_value = strncmp(answer, "V ", 2) == 0 && answer[2] >= '0' && answer[2] <= '9';
    errno = 0;
    *value = is_value ? strtoull(answer + 2, &end, 10) : 0;
    bool is_empty = answer[0] == 'V' && answer[1 + strspn(answer + 1, " ")] == '\0';
    if (!is_value || *end != '\0')
        fail_answer(thread, shown(answer, strlen(answer)), is_empty && !options.setup ? ". Does --setup set every register to 0?" : "");
    if (errno != 0)
        fail(thread, "the number in \"%s\" has more than 64 bits", answer);
    check_start(thread, *value);
    end_call(thread);
    return true;
}

static bool begin_transaction(void *memory UNUSED, void *tx UNUSED)
{
    return true;
}

static bool read_register(void *memory UNUSED, void *tx UNUSED, unsigned reg, uint64_t *value)
{
    return has_value(ask("R %u", reg), value);
}

static bool write_register(void *memory UNUSED, void *tx UNUSED, unsigned reg, uint64_t value)
{
    is_written = true;
    return is_done(ask("W %u %" PRIu64, reg, value), "K");
}

static bool add_to_register(void *memory UNUSED, void *tx UNUSED, unsigned reg, uint64_t addend, uint64_t *before)
{
    is_written = shared->is_to_add = true;
    bool has_added = has_value(ask("N %u %" PRIu64, reg, addend), before);
    if (has_added)
        shared->has_added = true;
    return has_added;
}

static bool commit_transaction(void *memory UNUSED, void *tx UNUSED)
{
    return is_done(ask("T"), "C");
}

static void abort_transaction(void *memory UNUSED, void *tx UNUSED)
{
    check_abort(tmwatch_thread(), ask("X"));
}

/* Says what a run in which nothing was wrong has left out. */
void tell_left_open(void)
{
    if (options.by_all && !shared->have_met)
        fputs("warning: no two calls ran at the same time. Also run with --schedule rounds\n", stderr);
    if (shared->is_to_add && !shared->has_added)
        fputs("warning: the program refused every add (N). Does it support --add?\n", stderr);
}

tmwatch_memory lines_memory(void)
{
    return (tmwatch_memory){.tx_size = 1,
                            .begin = begin_transaction,
                            .read = read_register,
                            .write = write_register,
                            .add = options.has_add ? add_to_register : NULL,
                            .commit = commit_transaction,
                            .abort = abort_transaction};
}
