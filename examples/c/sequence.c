/*
A memory of one sequence lock (Boehm, "Can Seqlocks Get Along with Programming Language Memory Models?", MSPC 2012) on the bench, with the
weakest orders that are right in C11 and C++20.

-DFAULT=FENCE leaves out the fence between a value and the second look at the sequence. No run on x86 shows that; on Arm some do.
*/
#include "tmwatch_bench.h"
#include <stdatomic.h>

#ifndef FAULT
#define FAULT NONE
#endif

enum { REGISTERS = 8 };
enum fault { NONE, FENCE };

struct tx {
    uint64_t snapshot;
    bool has_written, writes[REGISTERS];
    uint64_t written[REGISTERS];
};

static const enum fault fault = FAULT;
/* `sequence` is odd while a commit stores. */
static _Atomic uint64_t sequence, words[REGISTERS];

static bool begin(void *memory, void *tx)
{
    uint64_t now;
    (void)memory;
    while ((now = atomic_load_explicit(&sequence, memory_order_acquire)) % 2 == 1)
        TMWATCH_PAUSE();
    *(struct tx *)tx = (struct tx){.snapshot = now};
    return true;
}

static bool read(void *memory, void *tx, unsigned reg, uint64_t *value)
{
    struct tx *it = tx;
    (void)memory;
    *value = it->writes[reg] ? it->written[reg] : atomic_load_explicit(&words[reg], memory_order_relaxed);
    if (fault != FENCE)
        atomic_thread_fence(memory_order_acquire);
    return atomic_load_explicit(&sequence, memory_order_relaxed) == it->snapshot;
}

static bool write(void *memory, void *tx, unsigned reg, uint64_t value)
{
    struct tx *it = tx;
    (void)memory;
    it->has_written = it->writes[reg] = true;
    it->written[reg] = value;
    return true;
}

static bool commit(void *memory, void *tx)
{
    struct tx *it = tx;
    uint64_t expected = it->snapshot;
    (void)memory;
    if (!it->has_written)
        return true;
    if (!atomic_compare_exchange_strong_explicit(&sequence, &expected, expected + 1, memory_order_relaxed, memory_order_relaxed))
        return false;
    atomic_thread_fence(memory_order_release);
    for (unsigned reg = 0; reg < REGISTERS; reg++)
        if (it->writes[reg])
            atomic_store_explicit(&words[reg], it->written[reg], memory_order_relaxed);
    atomic_store_explicit(&sequence, it->snapshot + 2, memory_order_release);
    return true;
}

/* Nothing of it is stored yet. */
static void cancel(void *memory, void *tx)
{
    (void)memory;
    (void)tx;
}

static const tmwatch_memory memory = {NULL, sizeof(struct tx), begin, read, write, NULL, commit, cancel, NULL};

TMWATCH_BENCH_MAIN(memory)
