/*
A memory after TL2 (Dice, Shalev and Shavit, DISC 2006) on the bench. Each word has a version and a lock, and there is one clock. A write is
kept until the commit. The commit locks what it writes, raises the clock, validates what was read, stores, and unlocks with the new version.

A read looks at the word's lock before it loads the value and afterwards. By -DFAULT=BEFORE it looks only before; by AFTER, only afterwards.
By LOCKED the validation takes a locked word for a good one. By HALF a commit stores the upper halves of its values after it has unlocked.
By LEAK a commit that fails keeps its locks, and by WRAP a snapshot has eight bits of the clock: after some commits no other one follows.
*/
#include "tmwatch_bench.h"
#include <stdatomic.h>

#ifndef FAULT
#define FAULT NONE
#endif

enum { REGISTERS = 8 };
enum fault { NONE, BEFORE, AFTER, LOCKED, HALF, LEAK, WRAP };

/* `lock` is the version doubled, and odd while a commit holds it. */
struct word {
    _Atomic uint64_t lock, value;
};

struct tx {
    uint64_t snapshot;
    bool has_read[REGISTERS], writes[REGISTERS], holds[REGISTERS];
    uint64_t written[REGISTERS];
};

static const enum fault fault = FAULT;
static struct word words[REGISTERS];
static _Atomic uint64_t ticks;

static bool begin(void *memory, void *tx)
{
    (void)memory;
    *(struct tx *)tx = (struct tx){.snapshot = fault == WRAP ? ticks % 256 : ticks};
    return true;
}

/* Whether the lock is free, and its version as old as the transaction. */
static bool is_good(const struct tx *tx, uint64_t lock)
{
    return lock % 2 == 0 && lock / 2 <= tx->snapshot;
}

static bool read(void *memory, void *tx, unsigned reg, uint64_t *value)
{
    struct tx *it = tx;
    (void)memory;
    if (it->writes[reg]) {
        *value = it->written[reg];
        return true;
    }
    uint64_t before = words[reg].lock;
    TMWATCH_PAUSE();
    *value = words[reg].value;
    TMWATCH_PAUSE();
    uint64_t after = words[reg].lock;
    it->has_read[reg] = true;
    if (fault == BEFORE || fault == AFTER)
        return is_good(it, fault == BEFORE ? before : after);
    return is_good(it, before) && before == after;
}

static bool write(void *memory, void *tx, unsigned reg, uint64_t value)
{
    struct tx *it = tx;
    (void)memory;
    it->writes[reg] = true;
    it->written[reg] = value;
    return true;
}

static bool add(void *memory, void *tx, unsigned reg, uint64_t addend, uint64_t *before)
{
    return read(memory, tx, reg, before) && write(memory, tx, reg, *before + addend);
}

static bool take_locks(struct tx *tx)
{
    for (unsigned reg = 0; reg < REGISTERS; reg++) {
        if (!tx->writes[reg])
            continue;
        uint64_t lock = words[reg].lock;
        if (!is_good(tx, lock) || !atomic_compare_exchange_strong(&words[reg].lock, &lock, lock + 1))
            return false;
        tx->holds[reg] = true;
    }
    return true;
}

static bool is_valid(const struct tx *tx)
{
    for (unsigned reg = 0; reg < REGISTERS; reg++)
        if (tx->has_read[reg] && !tx->holds[reg] && !is_good(tx, fault == LOCKED ? words[reg].lock / 2 * 2 : words[reg].lock))
            return false;
    return true;
}

/* Stores what was written and unlocks with this version, or unlocks with the old one. */
static void give_locks(struct tx *tx, bool stores, uint64_t version)
{
    for (unsigned reg = 0; reg < REGISTERS; reg++) {
        if (!tx->holds[reg])
            continue;
        uint64_t lower = words[reg].value >> 32 << 32 | (uint32_t)tx->written[reg];
        if (stores)
            words[reg].value = fault == HALF ? lower : tx->written[reg];
        TMWATCH_PAUSE();
        words[reg].lock = stores ? 2 * version : words[reg].lock - 1;
        TMWATCH_PAUSE();
        if (stores && fault == HALF)
            words[reg].value = tx->written[reg];
    }
}

static bool has_written(const struct tx *tx)
{
    for (unsigned reg = 0; reg < REGISTERS; reg++)
        if (tx->writes[reg])
            return true;
    return false;
}

static bool commit(void *memory, void *tx)
{
    struct tx *it = tx;
    (void)memory;
    if (!has_written(it))
        return true;
    bool is_done = take_locks(it);
    uint64_t version = is_done ? ++ticks : 0;
    TMWATCH_PAUSE();
    is_done = is_done && is_valid(it);
    if (is_done || fault != LEAK)
        give_locks(it, is_done, version);
    return is_done;
}

/* Nothing of it is stored yet. */
static void cancel(void *memory, void *tx)
{
    (void)memory;
    (void)tx;
}

static const tmwatch_memory memory = {NULL, sizeof(struct tx), begin, read, write, add, commit, cancel, NULL};

TMWATCH_BENCH_MAIN(memory)
