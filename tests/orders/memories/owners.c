/*
DSTM (Herlihy, Luchangco, Moir and Scherer, PODC 2003) with the weakest orders that are right in C11: each word leads to a locator: who has
written it last, the value before and the value after. Whether the writer has committed says which counts. Who meets an active one aborts
that. Reads are seen by nobody: each looks again at all locators that were read before, and so does the commit.

WRONG: 1 a locator is loaded relaxed; 2 installed relaxed; 3 a status is loaded relaxed; 4 committed relaxed (right: fence 5 comes before);
5 no fence between the last locator that is installed and the last look at those that were read.
*/
#include "ordered.h"
#include <stdlib.h>

enum status { ACTIVE, COMMITTED, ABORTED };

/* A transaction's attempt, and all its locators. None is used twice, so that a pointer says which it is. */
struct owner {
    atomic_int status;
    struct owner *earlier;
    struct locator {
        struct owner *owner;
        _Atomic uint64_t before, after;
    } locators[REGISTERS];
};

struct opened {
    struct owner *mine;
    struct locator *read[REGISTERS], *written[REGISTERS];
    uint64_t values[REGISTERS];
};

static struct owner first = {.status = COMMITTED};
static _Atomic(struct locator *) words[REGISTERS];
static struct owner *all[MOST_THREADS];

static bool begin(void *memory UNUSED, void *tx)
{
    struct owner *mine = calloc(1, sizeof *mine);
    if (!mine)
        return false;
    mine->earlier = all[tmwatch_thread()];
    all[tmwatch_thread()] = mine;
    *(struct opened *)tx = (struct opened){.mine = mine};
    return true;
}

static struct locator *find_locator(unsigned reg)
{
    struct locator *it = LOAD(words[reg], ORDER(1, acquire, relaxed));
    return it ? it : &first.locators[reg];
}

/* Whether all that was read stands there still, or is this one's own. */
static bool is_valid(const struct opened *tx)
{
    for (unsigned reg = 0; reg < REGISTERS; reg++)
        if (tx->read[reg] && !tx->written[reg] && find_locator(reg) != tx->read[reg])
            return false;
    return true;
}

static void cancel(void *memory UNUSED, void *tx)
{
    struct opened *it = tx;
    STORE(it->mine->status, ABORTED, memory_order_release);
}

/* The value that counts, by the writer's status. An active writer is aborted. */
static uint64_t value_of(struct locator *locator)
{
    struct owner *owner = locator->owner ? locator->owner : &first;
    int status = LOAD(owner->status, ORDER(3, acquire, relaxed)), held = ACTIVE;
    if (status == ACTIVE && !atomic_compare_exchange_strong_explicit(&owner->status, &held, ABORTED, memory_order_acq_rel,
                                                                     ORDER(3, acquire, relaxed)))
        status = held;
    return status == COMMITTED ? LOAD(locator->after, relaxed) : LOAD(locator->before, relaxed);
}

static bool read(void *memory, void *tx, unsigned reg, uint64_t *value)
{
    struct opened *it = tx;
    if (it->written[reg]) {
        *value = LOAD(it->written[reg]->after, relaxed);
        return true;
    }
    if (!it->read[reg]) {
        it->read[reg] = find_locator(reg);
        it->values[reg] = value_of(it->read[reg]);
    }
    *value = it->values[reg];
    if (!is_valid(it))
        cancel(memory, tx);
    return LOAD(it->mine->status, relaxed) == ACTIVE;
}

/* Puts a locator of this one in the place of that which was read. */
static bool install(struct opened *tx, unsigned reg)
{
    struct locator *it = &tx->mine->locators[reg], *held = tx->read[reg] == &first.locators[reg] ? NULL : tx->read[reg];
    it->owner = tx->mine;
    STORE(it->before, tx->values[reg], relaxed);
    if (!SWAP(words[reg], &held, it, ORDER(2, release, relaxed)))
        return false;
    tx->written[reg] = it;
    return true;
}

static bool write(void *memory, void *tx, unsigned reg, uint64_t value)
{
    struct opened *it = tx;
    uint64_t before;
    if (!it->written[reg] && !(read(memory, tx, reg, &before) && install(it, reg))) {
        cancel(memory, tx);
        return false;
    }
    STORE(it->written[reg]->after, value, relaxed);
    return true;
}

static bool commit(void *memory, void *tx)
{
    struct opened *it = tx;
    int held = ACTIVE;
    FENCE(5, seq_cst);
    if (is_valid(it) && SWAP(it->mine->status, &held, COMMITTED, ORDER(4, release, relaxed)))
        return true;
    cancel(memory, tx);
    return false;
}

BENCH_OF(sizeof(struct opened), begin, read, write, commit, cancel)
