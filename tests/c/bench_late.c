/*
The little memory of examples/c on the bench. A call of thread 1 doesn't return until the result of the stuck run is being written: then that
thread goes on, slowly. So -fsanitize=thread shows what it still writes of what the result is read from.

    late SCHEDULE [wrong]    the number of a tmwatch_schedule; and whether that thread has read before what nobody wrote
*/
#define _GNU_SOURCE
#include "tmwatch_bench.h"
#undef TMWATCH_BENCH_MAIN
#define TMWATCH_BENCH_MAIN(memory)
#include "../../examples/c/norec.c"
#include "check.h"
#include <stdlib.h>
#include <string.h>
#include <unistd.h>

enum { LATE_CALL = 100, MOMENT = 3000, LONG = 50000 /* microseconds */ };

static bool is_wrong;          /* of thread 1 alone, once that runs */
static atomic_bool is_written; /* (relaxed, so that it orders nothing) */

/* Whether thread 1 is to hang from its next call on, each of which comes here. */
static bool comes_late(void)
{
    static unsigned calls;
    bool is_late = tmwatch_thread() == 1 && ++calls > LATE_CALL;
    do
        usleep(is_late && !is_wrong ? MOMENT : 0);
    while (is_late && !is_wrong && !atomic_load_explicit(&is_written, memory_order_relaxed));
    return is_late;
}

static bool late_read(void *unused, void *tx, unsigned reg, uint64_t *value)
{
    bool is_late = comes_late(), is_done = norec_read(unused, tx, reg, value);
    if (is_late && is_done && is_wrong) {
        *value ^= UINT64_C(0x5555555555);
        is_wrong = false;
    }
    return is_done;
}

static bool late_write(void *unused, void *tx, unsigned reg, uint64_t value)
{
    comes_late();
    return norec_write(unused, tx, reg, value);
}

static bool late_commit(void *unused, void *tx)
{
    comes_late();
    return norec_commit(unused, tx);
}

static void late_abort(void *unused, void *tx)
{
    comes_late();
    norec_abort(unused, tx);
}

/* Takes what is written, at first slowly. */
static ssize_t take(void *is_begun, const char *text, size_t size)
{
    (void)text;
    atomic_store_explicit(&is_written, true, memory_order_relaxed);
    usleep(*(bool *)is_begun ? 0 : LONG);
    *(bool *)is_begun = true;
    return (ssize_t)size;
}

static FILE *open_slow(bool *is_begun)
{
    FILE *file = fopencookie(is_begun, "w", (cookie_io_functions_t){.write = take});
    CHECK(file && setvbuf(file, NULL, _IOLBF, 64) == 0);
    return file;
}

int main(int count, char **words_given)
{
    static bool has_trace, has_listing;
    static tmwatch_bench_result out;
    tmwatch_memory late = memory;
    tmwatch_plan plan = TMWATCH_PLAN;
    CHECK(count > 1);
    late.read = late_read;
    late.write = late_write;
    late.add = NULL;
    late.commit = late_commit;
    late.abort = late_abort;
    is_wrong = count > 2;
    plan.schedule = (uint64_t)atoi(words_given[1]);
    plan.timeout = 1;
    plan.trace = open_slow(&has_trace);
    plan.steps_file = open_slow(&has_listing);
    CHECK(tmwatch_bench(&late, &plan, &out) == TMWATCH_HANG && has_trace);
    CHECK(out.result.verdict == (count > 2 ? TMWATCH_VIOLATED : TMWATCH_OPAQUE_SO_FAR) && out.result.events > LATE_CALL);
    CHECK(has_listing == (count > 2 && plan.schedule == TMWATCH_STEPS));
    usleep(LONG);
    _exit(0);
}
