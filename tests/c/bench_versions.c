/*
A memory that keeps each word's last versions, after JVSTM (Cachopo and Rito-Silva, Science of Computer Programming 2006), on the bench. A
transaction reads the clock when it begins, and then of each word the newest version that is no younger. So one that only reads commits
always; it aborts only if a version that it needs is no longer kept. A commit that writes takes the one lock, validates what was read, adds
its versions, and then raises the clock.

By -DFAULT=CLOCK the commit raises the clock first: a transaction that begins then misses its versions. By DROPPED a read returns the oldest
version that is kept, if the one it needs isn't. By AGAIN it doesn't look whether the version was overwritten while it loaded the value. By
RECYCLED a commit uses the oldest version's place again without a mark, so that the look sees nothing.
*/
#include "tmwatch_bench.h"
#include <sched.h>
#include <stdatomic.h>

#ifndef FAULT
#define FAULT NONE
#endif

enum { REGISTERS = 8, KEPT = 4 };
enum fault { NONE, CLOCK, DROPPED, AGAIN, RECYCLED };

/* A version: the clock of its commit, and the value. */
struct version {
    _Atomic uint64_t ticks, value;
};

/* Version i lies at i % KEPT. `newest` is the greatest i; version 0 has value 0. */
struct word {
    struct version versions[KEPT];
    _Atomic uint64_t newest;
};

struct tx {
    uint64_t snapshot;
    bool has_read[REGISTERS], writes[REGISTERS];
    uint64_t written[REGISTERS];
};

static const enum fault fault = FAULT;
static struct word words[REGISTERS];
static _Atomic uint64_t ticks;
static atomic_bool is_locked;

static bool begin(void *memory, void *tx)
{
    (void)memory;
    *(struct tx *)tx = (struct tx){.snapshot = ticks};
    return true;
}

/* Reads the newest version that is no younger than the snapshot. False if it is no longer kept. */
static bool read_version(struct word *word, uint64_t snapshot, uint64_t *value)
{
    uint64_t newest = word->newest;
    for (uint64_t i = 0; i < KEPT && i <= newest; i++) {
        struct version *version = &word->versions[(newest - i) % KEPT];
        uint64_t then = version->ticks;
        TMWATCH_PAUSE();
        if (then > snapshot)
            continue;
        TMWATCH_PAUSE();
        *value = version->value;
        return fault == AGAIN || version->ticks == then;
    }
    *value = word->versions[(newest + 1) % KEPT].value;
    return fault == DROPPED;
}

static bool read(void *memory, void *tx, unsigned reg, uint64_t *value)
{
    struct tx *it = tx;
    (void)memory;
    if (it->writes[reg]) {
        *value = it->written[reg];
        return true;
    }
    it->has_read[reg] = true;
    return read_version(&words[reg], it->snapshot, value);
}

static bool write(void *memory, void *tx, unsigned reg, uint64_t value)
{
    struct tx *it = tx;
    (void)memory;
    it->writes[reg] = true;
    it->written[reg] = value;
    return true;
}

static bool add(void *memory, void *tx, unsigned reg, uint64_t addend, uint64_t *before)
{
    return read(memory, tx, reg, before) && write(memory, tx, reg, *before + addend);
}

/* Whether what was read is still newest. The lock is held. */
static bool is_valid(const struct tx *tx)
{
    for (unsigned reg = 0; reg < REGISTERS; reg++)
        if (tx->has_read[reg] && words[reg].versions[words[reg].newest % KEPT].ticks > tx->snapshot)
            return false;
    return true;
}

/* Adds a version in the place of the oldest. Meanwhile the place is younger than any snapshot. */
static void add_version(struct word *word, uint64_t value, uint64_t now)
{
    struct version *version = &word->versions[(word->newest + 1) % KEPT];
    if (fault != RECYCLED)
        version->ticks = UINT64_MAX;
    TMWATCH_PAUSE();
    version->value = value;
    TMWATCH_PAUSE();
    version->ticks = now;
    word->newest++;
}

static void publish(const struct tx *tx)
{
    uint64_t now = ticks + 1;
    if (fault == CLOCK)
        ticks = now;
    for (unsigned reg = 0; reg < REGISTERS; reg++) {
        if (!tx->writes[reg])
            continue;
        TMWATCH_PAUSE();
        add_version(&words[reg], tx->written[reg], now);
    }
    ticks = now;
}

static bool has_written(const struct tx *tx)
{
    for (unsigned reg = 0; reg < REGISTERS; reg++)
        if (tx->writes[reg])
            return true;
    return false;
}

static bool commit(void *memory, void *tx)
{
    struct tx *it = tx;
    (void)memory;
    if (!has_written(it))
        return true;
    while (atomic_exchange(&is_locked, true)) {
        TMWATCH_PAUSE();
        sched_yield();
    }
    bool is_done = is_valid(it);
    if (is_done)
        publish(it);
    is_locked = false;
    return is_done;
}

/* Nothing of it is stored yet. */
static void cancel(void *memory, void *tx)
{
    (void)memory;
    (void)tx;
}

static const tmwatch_memory memory = {NULL, sizeof(struct tx), begin, read, write, add, commit, cancel, NULL};

TMWATCH_BENCH_MAIN(memory)
