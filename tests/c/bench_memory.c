/* The bench while each call for memory, or for a thread, is refused in turn, or the watch has no place left, and whether any memory stays. */
#include "tmwatch_bench.h"
#include "tmwatch/memory.h"
#include "check.h"
#include "heap.h"
#include <pthread.h>

enum { THREADS = 4, REGISTERS = 3 };

static _Atomic uint64_t words[REGISTERS];
/* How many threads were asked for, and the number of the one that is refused, counted from 1, if any. */
static unsigned threads, refused_thread;

int __real_pthread_create(pthread_t *thread, const pthread_attr_t *how, void *(*work)(void *), void *argument);

int __wrap_pthread_create(pthread_t *thread, const pthread_attr_t *how, void *(*work)(void *), void *argument)
{
    return ++threads == refused_thread ? 11 : __real_pthread_create(thread, how, work, argument);
}

/* How many places were asked for; and at which of these calls the watch has none left, if at any. */
static atomic_uint asked, spent;
uint32_t __real_tmwatch_room(tmwatch_recorder *recorder, uint64_t events);

uint32_t __wrap_tmwatch_room(tmwatch_recorder *recorder, uint64_t events)
{
    return ++asked >= spent && spent > 0 ? TMWATCH_SPENT : __real_tmwatch_room(recorder, events);
}

static bool begin(void *memory, void *tx)
{
    (void)memory;
    memory_begin(tx);
    return true;
}

static bool read(void *memory, void *tx, unsigned reg, uint64_t *value)
{
    (void)memory;
    return memory_read(tx, &words[reg], value);
}

static bool write(void *memory, void *tx, unsigned reg, uint64_t value)
{
    (void)memory;
    return memory_write(tx, &words[reg], value);
}

static bool commit(void *memory, void *tx)
{
    (void)memory;
    return memory_commit(tx);
}

static void cancel(void *memory, void *tx)
{
    (void)memory;
    memory_undo(tx);
}

static const tmwatch_memory memory = {NULL, sizeof(struct tx), begin, read, write, NULL, commit, cancel, NULL};

static uint64_t schedule = TMWATCH_ALL;

/* Runs some rounds, of which nothing may stay behind. */
static uint32_t run(void)
{
    tmwatch_plan plan = TMWATCH_PLAN;
    tmwatch_bench_result result, before;
    memset(&result, 7, sizeof result);
    memcpy(&before, &result, sizeof before);
    plan.schedule = schedule;
    plan.rounds = 20;
    plan.threads = THREADS;
    for (unsigned reg = 0; reg < REGISTERS; reg++)
        plan.start[reg] = words[reg];
    calls = 0;
    threads = 0;
    uint32_t status = tmwatch_bench(&memory, &plan, &result);
    CHECK(blocks == 0);
    CHECK(status == TMWATCH_OK ? result.result.verdict == TMWATCH_OPAQUE_SO_FAR && (spent > 0 ? result.rounds < 20 : result.rounds == 20)
                                 : status == TMWATCH_NO_MEMORY && memcmp(&before, &result, sizeof before) == 0);
    return status;
}

int main(void)
{
    unsigned long refusals = 0;
    CHECK(run() == TMWATCH_OK && calls > THREADS && threads == THREADS);
    for (refused = 1; refused == 1 || calls >= refused - 1; refused++)
        refusals += run() == TMWATCH_NO_MEMORY;
    CHECK(refusals > THREADS);
    refused = 0;
    for (refused_thread = 1; refused_thread <= THREADS; refused_thread++)
        CHECK(run() == TMWATCH_NO_MEMORY);
    CHECK(run() == TMWATCH_OK && peak < 4 << 20);
    for (schedule = TMWATCH_ROUNDS; schedule <= TMWATCH_ALL; schedule++) {
        spent = asked + 10;
        CHECK(run() == TMWATCH_OK);
    }
    printf("%lu refusals\n", refusals);
    return 0;
}
