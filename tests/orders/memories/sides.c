/*
Left-right (Ramalhete and Correia, "Left-Right: A Concurrency Control Technique with Wait-Free Population Oblivious Reads", 2015) with the
weakest orders that are right in C11: two copies of all words. Readers say by which of two versions they read, and then read the side that
counts. One commit at a time changes the other side, turns readers over, waits until none is left of the old version, and changes the rest.

WRONG: 1 no fence between a reader's arrival and its look at the side; 2 that look is relaxed; 3 a side is published relaxed; 4 no fence
between that and the look at readers; 5 the lock of commits is taken relaxed, 6 given back relaxed; 7 a reader departs relaxed, and 8 is
waited for relaxed, which take loads that are delayed past later stores.
*/
#include "ordered.h"

enum { SIDES = 2 };

struct arrived {
    unsigned side, version;
    uint64_t snapshot;
    bool is_there, has_written, writes[REGISTERS];
    uint64_t written[REGISTERS];
};

static _Atomic uint64_t words[SIDES][REGISTERS], commits[SIDES];
static atomic_bool is_read[SIDES][MOST_THREADS], is_locked;
static atomic_uint side, version;

static bool begin(void *memory UNUSED, void *tx)
{
    struct arrived *it = tx;
    *it = (struct arrived){.is_there = true, .version = LOAD(version, relaxed)};
    STORE(is_read[it->version][tmwatch_thread()], true, relaxed);
    FENCE(1, seq_cst);
    it->side = LOAD(side, ORDER(2, acquire, relaxed));
    it->snapshot = LOAD(commits[it->side], relaxed);
    return true;
}

static bool read(void *memory UNUSED, void *tx, unsigned reg, uint64_t *value)
{
    struct arrived *it = tx;
    *value = it->writes[reg] ? it->written[reg] : LOAD(words[it->side][reg], relaxed);
    return true;
}

static bool write(void *memory UNUSED, void *tx, unsigned reg, uint64_t value)
{
    struct arrived *it = tx;
    it->has_written = it->writes[reg] = true;
    it->written[reg] = value;
    return true;
}

/* Departs. */
static void cancel(void *memory UNUSED, void *tx)
{
    struct arrived *it = tx;
    if (it->is_there)
        STORE(is_read[it->version][tmwatch_thread()], false, ORDER(7, release, relaxed));
    it->is_there = false;
}

static void wait_for_readers(unsigned of)
{
    for (unsigned i = 0; i < MOST_THREADS; i++)
        while (LOAD(is_read[of][i], ORDER(8, acquire, relaxed)))
            ;
}

static void change(const struct arrived *tx, unsigned to)
{
    for (unsigned reg = 0; reg < REGISTERS; reg++)
        if (tx->writes[reg])
            STORE(words[to][reg], tx->written[reg], relaxed);
    STORE(commits[to], tx->snapshot + 1, relaxed);
}

/* Changes both sides. The lock is held. */
static void publish(const struct arrived *tx)
{
    unsigned old = LOAD(side, relaxed), then = LOAD(version, relaxed);
    change(tx, 1 - old);
    STORE(side, 1 - old, ORDER(3, release, relaxed));
    FENCE(4, seq_cst);
    wait_for_readers(1 - then);
    STORE(version, 1 - then, relaxed);
    wait_for_readers(then);
    change(tx, old);
}

static bool commit(void *memory, void *tx)
{
    struct arrived *it = tx;
    cancel(memory, tx);
    if (!it->has_written)
        return true;
    while (atomic_exchange_explicit(&is_locked, true, ORDER(5, acquire, relaxed)))
        ;
    bool is_done = LOAD(commits[LOAD(side, relaxed)], relaxed) == it->snapshot;
    if (is_done)
        publish(it);
    STORE(is_locked, false, ORDER(6, release, relaxed));
    return is_done;
}

BENCH_OF(sizeof(struct arrived), begin, read, write, commit, cancel)
