/*
A memory after TinySTM's write-through (Felber, Fetzer and Riegel, PPoPP 2008) with its extension of snapshots (Riegel, Felber and Fetzer,
DISC 2006), on the bench. A word's lock has a version and an incarnation, which counts the transactions that were rolled back since. A read
that finds a version younger than its snapshot takes a later snapshot, if all that was read is still there. A commit that raises the clock
by one from its own snapshot skips the validation; one that loses the race for the clock takes the winner's version and validates.

By -DFAULT=INCARNATION an incarnation has one bit and begins again; by LATE a word is unlocked before it is restored; by EXTENSION the later
snapshot is taken after the validation; by SHORTCUT a commit also skips it with the winner's version.
*/
#include "tmwatch_bench.h"
#include <stdatomic.h>

#ifndef FAULT
#define FAULT NONE
#endif

enum { REGISTERS = 8 };
enum fault { NONE, INCARNATION, LATE, EXTENSION, SHORTCUT };

/* `lock` is (version * INCARNATIONS + incarnation) doubled, and odd while a transaction holds it. */
struct word {
    _Atomic uint64_t lock, value;
};

struct tx {
    uint64_t snapshot;
    bool has_read[REGISTERS], holds[REGISTERS];
    uint64_t seen[REGISTERS], before[REGISTERS];
};

static const enum fault fault = FAULT;
static const uint64_t incarnations = FAULT == INCARNATION ? 2 : UINT64_C(1) << 24;
static struct word words[REGISTERS];
static _Atomic uint64_t ticks;

static uint64_t version_of(uint64_t lock)
{
    return lock / 2 / incarnations;
}

static bool begin(void *memory, void *tx)
{
    (void)memory;
    *(struct tx *)tx = (struct tx){.snapshot = ticks};
    return true;
}

/* The lock of a word that is rolled back: with the next incarnation. */
static uint64_t rolled_back(uint64_t lock)
{
    uint64_t version = version_of(lock), incarnation = (lock / 2 + 1) % incarnations;
    return (version * incarnations + incarnation) * 2;
}

static void restore(const struct tx *tx)
{
    for (unsigned reg = 0; reg < REGISTERS; reg++) {
        TMWATCH_PAUSE();
        if (tx->holds[reg])
            words[reg].value = tx->before[reg];
    }
}

static void unlock(const struct tx *tx)
{
    for (unsigned reg = 0; reg < REGISTERS; reg++) {
        TMWATCH_PAUSE();
        if (tx->holds[reg])
            words[reg].lock = rolled_back(words[reg].lock);
    }
}

static void cancel(void *memory, void *tx)
{
    (void)memory;
    if (fault != LATE)
        restore(tx);
    unlock(tx);
    if (fault == LATE)
        restore(tx);
}

/* A call that answers false leaves nothing of the transaction. */
static bool undo_unless(bool is_done, void *tx)
{
    if (!is_done)
        cancel(NULL, tx);
    return is_done;
}

/* Whether all that was read is still there. */
static bool is_valid(const struct tx *tx)
{
    for (unsigned reg = 0; reg < REGISTERS; reg++) {
        if (tx->has_read[reg] && !tx->holds[reg] && words[reg].lock != tx->seen[reg])
            return false;
        TMWATCH_PAUSE();
    }
    return true;
}

/* Takes a later snapshot, if all that was read is there at it. */
static bool extend(struct tx *tx)
{
    uint64_t now = ticks;
    TMWATCH_PAUSE();
    if (!is_valid(tx))
        return false;
    TMWATCH_PAUSE();
    tx->snapshot = fault == EXTENSION ? ticks : now;
    return true;
}

/* Loads a word whose lock is not held by another, of a version no younger than the snapshot. */
static bool load(struct tx *tx, unsigned reg, uint64_t *value)
{
    uint64_t lock = words[reg].lock;
    TMWATCH_PAUSE();
    *value = words[reg].value;
    TMWATCH_PAUSE();
    if (lock % 2 == 1 || words[reg].lock != lock)
        return false;
    if (version_of(lock) > tx->snapshot && !extend(tx))
        return false;
    if (version_of(lock) > tx->snapshot || words[reg].lock != lock || (tx->has_read[reg] && tx->seen[reg] != lock))
        return false;
    tx->has_read[reg] = true;
    tx->seen[reg] = lock;
    return true;
}

static bool read(void *memory, void *tx, unsigned reg, uint64_t *value)
{
    struct tx *it = tx;
    (void)memory;
    if (!it->holds[reg])
        return undo_unless(load(it, reg, value), tx);
    *value = words[reg].value;
    return true;
}

/* Takes the lock as it is for the snapshot. */
static bool take_lock(struct tx *tx, unsigned reg)
{
    uint64_t lock = words[reg].lock;
    if (tx->holds[reg])
        return true;
    if (lock % 2 == 1 || (tx->has_read[reg] && lock != tx->seen[reg]))
        return false;
    if (version_of(lock) > tx->snapshot && (!extend(tx) || version_of(lock) > tx->snapshot))
        return false;
    if (!atomic_compare_exchange_strong(&words[reg].lock, &lock, lock + 1))
        return false;
    tx->holds[reg] = true;
    tx->before[reg] = words[reg].value;
    return true;
}

static bool write(void *memory, void *tx, unsigned reg, uint64_t value)
{
    (void)memory;
    if (!undo_unless(take_lock(tx, reg), tx))
        return false;
    words[reg].value = value;
    TMWATCH_PAUSE();
    return true;
}

static bool add(void *memory, void *tx, unsigned reg, uint64_t addend, uint64_t *before)
{
    return read(memory, tx, reg, before) && write(memory, tx, reg, *before + addend);
}

/* The version of a commit, and whether it has raised the clock itself. */
static uint64_t raise_clock(bool *is_own)
{
    uint64_t now = ticks;
    TMWATCH_PAUSE();
    *is_own = atomic_compare_exchange_strong(&ticks, &now, now + 1);
    return *is_own ? now + 1 : now;
}

static bool holds_any(const struct tx *tx)
{
    for (unsigned reg = 0; reg < REGISTERS; reg++)
        if (tx->holds[reg])
            return true;
    return false;
}

static bool commit(void *memory, void *tx)
{
    struct tx *it = tx;
    bool is_own;
    (void)memory;
    if (!holds_any(it))
        return true;
    uint64_t version = raise_clock(&is_own);
    TMWATCH_PAUSE();
    bool skips = version == it->snapshot + 1 && (is_own || fault == SHORTCUT);
    if (!undo_unless(skips || is_valid(it), tx))
        return false;
    for (unsigned reg = 0; reg < REGISTERS; reg++) {
        TMWATCH_PAUSE();
        if (it->holds[reg])
            words[reg].lock = version * incarnations * 2;
    }
    return true;
}

static const tmwatch_memory memory = {NULL, sizeof(struct tx), begin, read, write, add, commit, cancel, NULL};

TMWATCH_BENCH_MAIN(memory)
