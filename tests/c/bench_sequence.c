/*
A memory of one sequence on the bench, odd while a commit stores. A read is good if the sequence is that of the transaction's beginning,
and a commit that writes raises it twice.

By -DFAULT=WRAP the sequence begins again after four commits, so that a transaction may take a later one for its own.
*/
#include "tmwatch_bench.h"
#include <sched.h>
#include <stdatomic.h>

#ifndef FAULT
#define FAULT NONE
#endif

enum { REGISTERS = 8 };
enum fault { NONE, WRAP };

struct tx {
    uint64_t snapshot;
    bool has_written, writes[REGISTERS];
    uint64_t written[REGISTERS];
};

static const enum fault fault = FAULT;
static _Atomic uint64_t sequence, words[REGISTERS];

static bool begin(void *memory, void *tx)
{
    uint64_t now;
    (void)memory;
    while ((now = sequence) % 2 == 1) {
        TMWATCH_PAUSE();
        sched_yield();
    }
    *(struct tx *)tx = (struct tx){.snapshot = now};
    return true;
}

static bool read(void *memory, void *tx, unsigned reg, uint64_t *value)
{
    struct tx *it = tx;
    (void)memory;
    *value = it->writes[reg] ? it->written[reg] : words[reg];
    TMWATCH_PAUSE();
    return sequence == it->snapshot;
}

static bool write(void *memory, void *tx, unsigned reg, uint64_t value)
{
    struct tx *it = tx;
    (void)memory;
    it->has_written = it->writes[reg] = true;
    it->written[reg] = value;
    return true;
}

static bool add(void *memory, void *tx, unsigned reg, uint64_t addend, uint64_t *before)
{
    return read(memory, tx, reg, before) && write(memory, tx, reg, *before + addend);
}

static bool commit(void *memory, void *tx)
{
    struct tx *it = tx;
    uint64_t expected = it->snapshot;
    (void)memory;
    if (!it->has_written)
        return true;
    if (!atomic_compare_exchange_strong(&sequence, &expected, expected + 1))
        return false;
    for (unsigned reg = 0; reg < REGISTERS; reg++) {
        TMWATCH_PAUSE();
        if (it->writes[reg])
            words[reg] = it->written[reg];
    }
    sequence = fault == WRAP ? (it->snapshot + 2) % 8 : it->snapshot + 2;
    return true;
}

/* Nothing of it is stored yet. */
static void cancel(void *memory, void *tx)
{
    (void)memory;
    (void)tx;
}

static const tmwatch_memory memory = {NULL, sizeof(struct tx), begin, read, write, add, commit, cancel, NULL};

TMWATCH_BENCH_MAIN(memory)
