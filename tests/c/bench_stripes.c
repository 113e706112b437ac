/*
A memory whose words share four locks, as neighbours do in a table of stripes, on the bench. It locks a stripe when it first writes there,
and writes in place, after TinySTM's write-through with its extension of snapshots (Felber, Fetzer and Riegel, PPoPP 2008). A transaction
that finds a stripe younger than its snapshot takes a later snapshot, if all that it has read is still there.

By -DFAULT=NEIGHBOUR a roll-back restores of each stripe only the word that was written first. By EXTENSION a read of a
stripe that the transaction has read before takes no later snapshot, though that was of the neighbour. With four registers or fewer, both
are right.
*/
#include "tmwatch_bench.h"
#include <stdatomic.h>

#ifndef FAULT
#define FAULT NONE
#endif

enum { REGISTERS = 8, STRIPES = 4, MOST_WRITES = 16 };
enum fault { NONE, NEIGHBOUR, EXTENSION };

/* A transaction: what it has read, the lock that it found there, the stripes that it holds, and what it has written. */
struct tx {
    uint64_t snapshot, found[STRIPES], values[REGISTERS];
    bool has_read[REGISTERS], holds[STRIPES];
    unsigned count;
    struct {
        unsigned reg;
        uint64_t before;
    } written[MOST_WRITES];
};

static const enum fault fault = FAULT;
static _Atomic uint64_t words[REGISTERS], ticks;
static _Atomic uint64_t locks[STRIPES]; /* the version doubled, and odd while a transaction holds it */

static bool begin(void *memory, void *tx)
{
    (void)memory;
    *(struct tx *)tx = (struct tx){.snapshot = ticks};
    return true;
}

static void give_locks(const struct tx *tx)
{
    uint64_t version = ++ticks;
    for (unsigned stripe = 0; stripe < STRIPES; stripe++)
        if (tx->holds[stripe])
            locks[stripe] = 2 * version;
}

static void cancel(void *memory, void *tx)
{
    struct tx *it = tx;
    (void)memory;
    for (unsigned i = it->count; i > 0; i--) {
        TMWATCH_PAUSE();
        words[it->written[i - 1].reg] = it->written[i - 1].before;
    }
    give_locks(it);
}

/* A call that answers false leaves nothing of the transaction. */
static bool undo_unless(bool is_done, void *tx)
{
    if (!is_done)
        cancel(NULL, tx);
    return is_done;
}

static bool has_read_there(const struct tx *tx, unsigned stripe)
{
    return tx->has_read[stripe] || tx->has_read[stripe + STRIPES];
}

/* Whether all that was read is still there. What is held was so when it was locked. */
static bool is_valid(const struct tx *tx)
{
    for (unsigned stripe = 0; stripe < STRIPES; stripe++)
        if (has_read_there(tx, stripe) && !tx->holds[stripe] && locks[stripe] != tx->found[stripe])
            return false;
    return true;
}

static bool extend(struct tx *tx)
{
    uint64_t now = ticks;
    TMWATCH_PAUSE();
    if (!is_valid(tx))
        return false;
    tx->snapshot = now;
    return true;
}

static bool read(void *memory, void *tx, unsigned reg, uint64_t *value)
{
    struct tx *it = tx;
    unsigned stripe = reg % STRIPES;
    (void)memory;
    uint64_t lock = locks[stripe];
    TMWATCH_PAUSE();
    *value = it->has_read[reg] && !it->holds[stripe] ? it->values[reg] : words[reg];
    if (it->holds[stripe] || it->has_read[reg])
        return true;
    TMWATCH_PAUSE();
    bool is_same = lock % 2 == 0 && locks[stripe] == lock, was_read = has_read_there(it, stripe);
    bool is_known = fault == EXTENSION && was_read;
    if (!is_known && was_read && it->found[stripe] != lock)
        is_same = false;
    if (!undo_unless(is_same && (is_known || lock / 2 <= it->snapshot || (extend(it) && locks[stripe] == lock)), tx))
        return false;
    it->has_read[reg] = true;
    it->values[reg] = *value;
    it->found[stripe] = lock;
    return true;
}

static bool take_lock(struct tx *tx, unsigned reg)
{
    unsigned stripe = reg % STRIPES;
    uint64_t lock = locks[stripe];
    TMWATCH_PAUSE();
    if (lock % 2 == 1 || !atomic_compare_exchange_strong(&locks[stripe], &lock, lock + 1))
        return false;
    tx->holds[stripe] = true;
    return !(has_read_there(tx, stripe) && tx->found[stripe] != lock) && (lock / 2 <= tx->snapshot || extend(tx));
}

static bool write(void *memory, void *tx, unsigned reg, uint64_t value)
{
    struct tx *it = tx;
    bool is_first = !it->holds[reg % STRIPES];
    (void)memory;
    if (is_first && !undo_unless(take_lock(it, reg), tx))
        return false;
    if (is_first || fault != NEIGHBOUR) {
        it->written[it->count].reg = reg;
        it->written[it->count++].before = words[reg];
    }
    words[reg] = value;
    TMWATCH_PAUSE();
    return true;
}

static bool add(void *memory, void *tx, unsigned reg, uint64_t addend, uint64_t *before)
{
    return read(memory, tx, reg, before) && write(memory, tx, reg, *before + addend);
}

static bool commit(void *memory, void *tx)
{
    struct tx *it = tx;
    (void)memory;
    if (it->count == 0)
        return true;
    TMWATCH_PAUSE();
    if (!undo_unless(is_valid(it), tx))
        return false;
    give_locks(it);
    return true;
}

static const tmwatch_memory memory = {NULL, sizeof(struct tx), begin, read, write, add, commit, cancel, NULL};

TMWATCH_BENCH_MAIN(memory)
