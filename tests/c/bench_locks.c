/*
A memory with a lock for each word, by two-phase locking (Eswaran, Gray, Lorie and Traiger, CACM 1976), on the bench. A transaction takes a
word's lock when it first uses the word, and keeps it to its end. It writes in place. If another transaction has the lock, it aborts.

By -DFAULT=EARLY it gives the lock back after a read, unless it has written the word before.
*/
#include "tmwatch_bench.h"
#include <stdatomic.h>

#ifndef FAULT
#define FAULT NONE
#endif

enum { REGISTERS = 8 };
enum fault { NONE, EARLY };

struct word {
    atomic_bool is_locked;
    _Atomic uint64_t value;
};

/* A transaction: which words it holds, which of them it has written, and what these held before. */
struct tx {
    bool holds[REGISTERS], has_written[REGISTERS];
    uint64_t before[REGISTERS];
};

static const enum fault fault = FAULT;
static struct word words[REGISTERS];

static bool begin(void *memory, void *tx)
{
    (void)memory;
    *(struct tx *)tx = (struct tx){0};
    return true;
}

static void give_lock(struct tx *tx, unsigned reg)
{
    if (tx->holds[reg])
        words[reg].is_locked = false;
    tx->holds[reg] = false;
}

static bool commit(void *memory, void *tx)
{
    (void)memory;
    for (unsigned reg = 0; reg < REGISTERS; reg++)
        give_lock(tx, reg);
    return true;
}

static void cancel(void *memory, void *tx)
{
    struct tx *it = tx;
    for (unsigned reg = 0; reg < REGISTERS; reg++) {
        if (!it->has_written[reg])
            continue;
        TMWATCH_PAUSE();
        words[reg].value = it->before[reg];
    }
    commit(memory, tx);
}

/* Takes the lock. If another has it, nothing is left of the transaction. */
static bool take_lock(void *memory, struct tx *tx, unsigned reg)
{
    if (!tx->holds[reg] && atomic_exchange(&words[reg].is_locked, true)) {
        cancel(memory, tx);
        return false;
    }
    tx->holds[reg] = true;
    return true;
}

static bool read(void *memory, void *tx, unsigned reg, uint64_t *value)
{
    struct tx *it = tx;
    if (!take_lock(memory, it, reg))
        return false;
    *value = words[reg].value;
    TMWATCH_PAUSE();
    if (fault == EARLY && !it->has_written[reg])
        give_lock(it, reg);
    return true;
}

static bool write(void *memory, void *tx, unsigned reg, uint64_t value)
{
    struct tx *it = tx;
    if (!take_lock(memory, it, reg))
        return false;
    if (!it->has_written[reg])
        it->before[reg] = words[reg].value;
    it->has_written[reg] = true;
    words[reg].value = value;
    return true;
}

static bool add(void *memory, void *tx, unsigned reg, uint64_t addend, uint64_t *before)
{
    return read(memory, tx, reg, before) && write(memory, tx, reg, *before + addend);
}

static const tmwatch_memory memory = {NULL, sizeof(struct tx), begin, read, write, add, commit, cancel, NULL};

TMWATCH_BENCH_MAIN(memory)
