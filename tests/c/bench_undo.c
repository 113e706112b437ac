/*
A memory that locks a word when it first writes it, and writes in place, after TinySTM's write-through (Felber, Fetzer and Riegel,
PPoPP 2008), on the bench. A transaction that aborts restores what the words held before, and then unlocks them with a new version.

By -DFAULT=UNLOCK it unlocks them before it restores. By VERSION it unlocks them with their old version: a read that looks at the lock
before and after the load can't tell that the value it has loaded was undone in between. By CLOCK it raises the clock by a load and a store.
*/
#include "tmwatch_bench.h"
#include <stdatomic.h>

#ifndef FAULT
#define FAULT NONE
#endif

enum { REGISTERS = 8 };
enum fault { NONE, UNLOCK, VERSION, CLOCK };

/* `lock` is the version doubled, and odd while a transaction holds it. */
struct word {
    _Atomic uint64_t lock, value;
};

/* A transaction: which words it has read, which it holds, and what these held before. */
struct tx {
    uint64_t snapshot;
    bool has_read[REGISTERS], holds[REGISTERS];
    uint64_t before[REGISTERS];
};

static const enum fault fault = FAULT;
static struct word words[REGISTERS];
static _Atomic uint64_t ticks;

static bool begin(void *memory, void *tx)
{
    (void)memory;
    *(struct tx *)tx = (struct tx){.snapshot = ticks};
    return true;
}

/* Unlocks all words with this version, or with the one that was found. */
static void give_locks(const struct tx *tx, bool is_new, uint64_t version)
{
    for (unsigned reg = 0; reg < REGISTERS; reg++)
        if (tx->holds[reg])
            words[reg].lock = is_new ? 2 * version : words[reg].lock - 1;
}

static void restore(const struct tx *tx)
{
    for (unsigned reg = 0; reg < REGISTERS; reg++) {
        if (!tx->holds[reg])
            continue;
        TMWATCH_PAUSE();
        words[reg].value = tx->before[reg];
    }
}

static uint64_t raise_clock(void)
{
    if (fault != CLOCK)
        return ++ticks;
    uint64_t version = ticks + 1;
    TMWATCH_PAUSE();
    ticks = version;
    return version;
}

static void cancel(void *memory, void *tx)
{
    (void)memory;
    if (fault != UNLOCK)
        restore(tx);
    give_locks(tx, fault != VERSION, fault != VERSION ? raise_clock() : 0);
    if (fault == UNLOCK)
        restore(tx);
}

/* A call that answers false leaves nothing of the transaction. */
static bool undo_unless(bool is_done, void *tx)
{
    if (!is_done)
        cancel(NULL, tx);
    return is_done;
}

/* Whether the lock is free, and its version as old as the transaction. */
static bool is_good(const struct tx *tx, uint64_t lock)
{
    return lock % 2 == 0 && lock / 2 <= tx->snapshot;
}

static bool read(void *memory, void *tx, unsigned reg, uint64_t *value)
{
    struct tx *it = tx;
    (void)memory;
    uint64_t before = words[reg].lock;
    TMWATCH_PAUSE();
    *value = words[reg].value;
    TMWATCH_PAUSE();
    it->has_read[reg] = true;
    return undo_unless(it->holds[reg] || (is_good(it, before) && words[reg].lock == before), tx);
}

static bool take_lock(struct tx *tx, unsigned reg)
{
    uint64_t lock = words[reg].lock;
    if (tx->holds[reg])
        return true;
    if (!is_good(tx, lock) || !atomic_compare_exchange_strong(&words[reg].lock, &lock, lock + 1))
        return false;
    tx->holds[reg] = true;
    tx->before[reg] = words[reg].value;
    return true;
}

static bool write(void *memory, void *tx, unsigned reg, uint64_t value)
{
    (void)memory;
    bool is_done = take_lock(tx, reg);
    if (is_done)
        words[reg].value = value;
    return undo_unless(is_done, tx);
}

static bool add(void *memory, void *tx, unsigned reg, uint64_t addend, uint64_t *before)
{
    return read(memory, tx, reg, before) && write(memory, tx, reg, *before + addend);
}

static bool is_valid(const struct tx *tx)
{
    for (unsigned reg = 0; reg < REGISTERS; reg++)
        if (tx->has_read[reg] && !tx->holds[reg] && !is_good(tx, words[reg].lock))
            return false;
    return true;
}

static bool holds_any(const struct tx *tx)
{
    for (unsigned reg = 0; reg < REGISTERS; reg++)
        if (tx->holds[reg])
            return true;
    return false;
}

static bool commit(void *memory, void *tx)
{
    (void)memory;
    if (!holds_any(tx))
        return true;
    uint64_t version = raise_clock();
    TMWATCH_PAUSE();
    if (!undo_unless(is_valid(tx), tx))
        return false;
    give_locks(tx, true, version);
    return true;
}

static const tmwatch_memory memory = {NULL, sizeof(struct tx), begin, read, write, add, commit, cancel, NULL};

TMWATCH_BENCH_MAIN(memory)
