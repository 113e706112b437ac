/*
JVSTM's versions (Cachopo and Rito-Silva, Science of Computer Programming 2006) with the weakest orders that are right in C11: each word keeps
its last ones; a transaction reads the newest that is no younger than its clock; one commit at a time adds versions, and then raises the
clock.

WRONG: 1 the lock of commits is taken relaxed, 2 given back relaxed; 3 the clock is loaded relaxed, 4 stored relaxed; 6 no acquire fence
between value and second look, 7 no release fence between mark and value; 8 an acquire load as the second look in place of fence 6; 9 a
place is marked relaxed: a reader that meets the mark may find the place before it as it was; 10 the number of the newest version is stored
relaxed (right: fence 7 comes before).
*/
#include "ordered.h"

enum { KEPT = 2 };

struct version {
    _Atomic uint64_t ticks, value;
};

/* Version i lies at i % KEPT. `newest` is the greatest i. */
struct word {
    struct version versions[KEPT];
    _Atomic uint64_t newest;
};

static struct word words[REGISTERS];
static _Atomic uint64_t ticks;
static atomic_bool is_locked;

static bool begin(void *memory UNUSED, void *tx)
{
    *(struct tx *)tx = (struct tx){.snapshot = LOAD(ticks, ORDER(3, acquire, relaxed))};
    return true;
}

/* Reads the newest version that is no younger than the snapshot. False if it is no longer kept, or is overwritten meanwhile. */
static bool read_version(struct word *word, uint64_t snapshot, uint64_t *value)
{
    uint64_t newest = LOAD(word->newest, memory_order_acquire);
    for (uint64_t i = 0; i < KEPT && i <= newest; i++) {
        struct version *version = &word->versions[(newest - i) % KEPT];
        uint64_t then = LOAD(version->ticks, memory_order_acquire);
        if (then > snapshot)
            continue;
        *value = LOAD(version->value, relaxed);
        if (WRONG != 8)
            FENCE(6, acquire);
        return LOAD(version->ticks, ORDER(8, relaxed, acquire)) == then;
    }
    return false;
}

static bool read(void *memory UNUSED, void *tx, unsigned reg, uint64_t *value)
{
    struct tx *it = tx;
    if (it->writes[reg]) {
        *value = it->written[reg];
        return true;
    }
    it->has_read[reg] = true;
    return read_version(&words[reg], it->snapshot, value);
}

/* Whether what was read is still newest. The lock is held. */
static bool is_valid(const struct tx *tx)
{
    for (unsigned reg = 0; reg < REGISTERS; reg++) {
        uint64_t newest = LOAD(words[reg].newest, relaxed);
        if (tx->has_read[reg] && LOAD(words[reg].versions[newest % KEPT].ticks, relaxed) > tx->snapshot)
            return false;
    }
    return true;
}

/* Adds a version in the place of the oldest. Meanwhile the place is marked: younger than any snapshot. */
static void add_version(struct word *word, uint64_t value, uint64_t now)
{
    uint64_t newest = LOAD(word->newest, relaxed);
    struct version *version = &word->versions[(newest + 1) % KEPT];
    STORE(version->ticks, UINT64_MAX, ORDER(9, release, relaxed));
    FENCE(7, release);
    STORE(version->value, value, relaxed);
    STORE(version->ticks, now, memory_order_release);
    STORE(word->newest, newest + 1, ORDER(10, release, relaxed));
}

static void publish(const struct tx *tx)
{
    uint64_t now = LOAD(ticks, relaxed) + 1;
    for (unsigned reg = 0; reg < REGISTERS; reg++)
        if (tx->writes[reg])
            add_version(&words[reg], tx->written[reg], now);
    STORE(ticks, now, ORDER(4, release, relaxed));
}

static bool commit(void *memory UNUSED, void *tx)
{
    struct tx *it = tx;
    if (!it->has_written)
        return true;
    while (atomic_exchange_explicit(&is_locked, true, ORDER(1, acquire, relaxed)))
        ;
    bool is_done = is_valid(it);
    if (is_done)
        publish(it);
    STORE(is_locked, false, ORDER(2, release, relaxed));
    return is_done;
}

BENCH(begin, read, keep_write, commit, forget)
