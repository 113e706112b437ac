/*
TinySTM's write-through (Felber, Fetzer and Riegel, PPoPP 2008) with the weakest orders that are right in C11: a word is locked when it is
first written, and written in place; who aborts restores it and unlocks with a new version.

WRONG: 1 no release fence between lock and data; 2 no acquire fence between data and second look; 3 the first look at a lock is relaxed, 4
the clock is loaded relaxed (each alone is right: a fence follows before the second look), 34 both are; 5 unlocked relaxed (right: the clock
is raised after the values are stored); 6 the clock is raised relaxed; 7 an acquire load as the second look in place of fence 2.
*/
#include "ordered.h"

struct word {
    _Atomic uint64_t lock, value;
};

static struct word words[REGISTERS];
static _Atomic uint64_t ticks;

static bool begin(void *memory UNUSED, void *tx)
{
    memory_order order = WRONG == 34 ? relaxed : ORDER(4, acquire, relaxed);
    *(struct tx *)tx = (struct tx){.snapshot = LOAD(ticks, order)};
    return true;
}

static uint64_t raise_clock(void)
{
    return atomic_fetch_add_explicit(&ticks, 1, ORDER(6, acq_rel, relaxed)) + 1;
}

static void give_locks(const struct tx *tx, uint64_t version)
{
    for (unsigned reg = 0; reg < REGISTERS; reg++)
        if (tx->holds[reg])
            STORE(words[reg].lock, 2 * version, ORDER(5, release, relaxed));
}

static void cancel(void *memory UNUSED, void *tx)
{
    struct tx *it = tx;
    for (unsigned reg = 0; reg < REGISTERS; reg++)
        if (it->holds[reg])
            STORE(words[reg].value, it->before[reg], relaxed);
    if (it->has_written)
        give_locks(it, raise_clock());
}

/* A call that answers false leaves nothing of the transaction. */
static bool undo_unless(bool is_done, void *tx)
{
    if (!is_done)
        cancel(NULL, tx);
    return is_done;
}

static bool is_good(const struct tx *tx, uint64_t lock)
{
    return lock % 2 == 0 && lock / 2 <= tx->snapshot;
}

static bool read(void *memory UNUSED, void *tx, unsigned reg, uint64_t *value)
{
    struct tx *it = tx;
    uint64_t before = LOAD(words[reg].lock, WRONG == 34 ? relaxed : ORDER(3, acquire, relaxed));
    *value = LOAD(words[reg].value, relaxed);
    if (WRONG != 7)
        FENCE(2, acquire);
    it->has_read[reg] = true;
    bool is_same = LOAD(words[reg].lock, ORDER(7, relaxed, acquire)) == before;
    return undo_unless(it->holds[reg] || (is_good(it, before) && is_same), tx);
}

static bool take_lock(struct tx *tx, unsigned reg)
{
    uint64_t lock = LOAD(words[reg].lock, ALWAYS(relaxed));
    if (tx->holds[reg])
        return true;
    if (!is_good(tx, lock) || !SWAP(words[reg].lock, &lock, lock + 1, ALWAYS(acquire)))
        return false;
    tx->holds[reg] = tx->has_written = true;
    tx->before[reg] = LOAD(words[reg].value, relaxed);
    FENCE(1, release);
    return true;
}

static bool write(void *memory UNUSED, void *tx, unsigned reg, uint64_t value)
{
    bool is_done = take_lock(tx, reg);
    if (is_done)
        STORE(words[reg].value, value, relaxed);
    return undo_unless(is_done, tx);
}

static bool is_valid(const struct tx *tx)
{
    for (unsigned reg = 0; reg < REGISTERS; reg++)
        if (tx->has_read[reg] && !tx->holds[reg] && !is_good(tx, LOAD(words[reg].lock, ALWAYS(relaxed))))
            return false;
    return true;
}

static bool commit(void *memory UNUSED, void *tx)
{
    struct tx *it = tx;
    if (!it->has_written)
        return true;
    uint64_t version = raise_clock();
    if (!undo_unless(is_valid(it), tx))
        return false;
    give_locks(it, version);
    return true;
}

BENCH(begin, read, write, commit, cancel)
