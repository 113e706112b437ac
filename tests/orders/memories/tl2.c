/*
TL2 (Dice, Shalev and Shavit, DISC 2006) with the weakest orders that are right in C11, reads as Boehm's seqlocks (MSPC 2012). By -DLOADS
it has an acquire load and release stores of the data in place of two fences. By -DFREE the lock is taken relaxed: a
blind write may then come before the one that it follows.

WRONG: 1 the clock is loaded relaxed (wrong with LOADS alone: else a fence follows before the second look); 2 the first look at a lock is
relaxed; 3 no acquire fence between data and second look; 5 no release fence between lock and data; 6, 7, 8 the clock is raised relaxed, by
release or acquire alone; 9 unlocked relaxed after a commit, 10 after a refusal. With LOADS: 11 the data is loaded relaxed, 12 stored
relaxed. 13: the second look is an acquire load in place of fence and load.
*/
#include "ordered.h"

struct word {
    _Atomic uint64_t lock, value;
};

static struct word words[REGISTERS];
static _Atomic uint64_t ticks;
#ifdef LOADS
#define DATA_LOAD ORDER(11, acquire, relaxed)
#define DATA_STORE ORDER(12, release, relaxed)
#undef FENCE
#define FENCE(number, order) ((void)0)
#else
#define DATA_LOAD relaxed
#define DATA_STORE relaxed
#endif
#ifdef FREE
#define TAKE relaxed
#else
#define TAKE ALWAYS(acquire)
#endif

static bool begin(void *memory UNUSED, void *tx)
{
    *(struct tx *)tx = (struct tx){.snapshot = LOAD(ticks, ORDER(1, acquire, relaxed))};
    return true;
}

static bool is_good(const struct tx *tx, uint64_t lock)
{
    return lock % 2 == 0 && lock / 2 <= tx->snapshot;
}

static bool read(void *memory UNUSED, void *tx, unsigned reg, uint64_t *value)
{
    struct tx *it = tx;
    if (it->writes[reg]) {
        *value = it->written[reg];
        return true;
    }
    uint64_t before = LOAD(words[reg].lock, ORDER(2, acquire, relaxed));
    *value = LOAD(words[reg].value, DATA_LOAD);
    if (WRONG != 13)
        FENCE(3, acquire);
    uint64_t after = LOAD(words[reg].lock, ORDER(13, relaxed, acquire));
    it->has_read[reg] = true;
    return is_good(it, before) && before == after;
}

static bool take_locks(struct tx *tx)
{
    for (unsigned reg = 0; reg < REGISTERS; reg++) {
        if (!tx->writes[reg])
            continue;
        uint64_t lock = LOAD(words[reg].lock, ALWAYS(relaxed));
        if (!is_good(tx, lock) || !SWAP(words[reg].lock, &lock, lock + 1, TAKE))
            return false;
        tx->holds[reg] = true;
        tx->before[reg] = lock;
    }
    return true;
}

static bool is_valid(const struct tx *tx)
{
    for (unsigned reg = 0; reg < REGISTERS; reg++)
        if (tx->has_read[reg] && !tx->holds[reg] && !is_good(tx, LOAD(words[reg].lock, ALWAYS(relaxed))))
            return false;
    return true;
}

static void give_locks(struct tx *tx, bool stores, uint64_t version)
{
    for (unsigned reg = 0; reg < REGISTERS; reg++)
        if (tx->holds[reg] && stores)
            STORE(words[reg].value, tx->written[reg], DATA_STORE);
    for (unsigned reg = 0; reg < REGISTERS; reg++)
        if (tx->holds[reg] && stores)
            STORE(words[reg].lock, 2 * version, ORDER(9, release, relaxed));
        else if (tx->holds[reg])
            STORE(words[reg].lock, tx->before[reg], ORDER(10, release, relaxed));
}

static bool commit(void *memory UNUSED, void *tx)
{
    struct tx *it = tx;
    if (!it->has_written)
        return true;
    bool is_done = take_locks(it);
    memory_order raise = WRONG == 6 ? relaxed : WRONG == 7 ? memory_order_release : ORDER(8, acq_rel, acquire);
    uint64_t version = is_done ? atomic_fetch_add_explicit(&ticks, 1, raise) + 1 : 0;
    is_done = is_done && is_valid(it);
    if (is_done)
        FENCE(5, release);
    give_locks(it, is_done, version);
    return is_done;
}

BENCH(begin, read, keep_write, commit, forget)
