/*
One sequence lock over all words (Boehm, MSPC 2012), a transaction that meets a commit aborts. By -DLOADS the data is loaded by acquire and
stored by release in place of the fences.

WRONG: 1 the sequence is loaded relaxed at the beginning; 2 no acquire fence between data and second look, 7 an acquire look in its place;
3 no release fence after it is taken, though that is by acquire and release; 4 it is given back relaxed. With LOADS: 5 the data is stored
relaxed; 6 loaded relaxed.
*/
#include "ordered.h"

static _Atomic uint64_t sequence, words[REGISTERS];
#ifdef LOADS
#define DATA_LOAD ORDER(6, acquire, relaxed)
#define DATA_STORE ORDER(5, release, relaxed)
#undef FENCE
#define FENCE(number, order) ((void)0)
#else
#define DATA_LOAD relaxed
#define DATA_STORE relaxed
#endif

static bool begin(void *memory UNUSED, void *tx)
{
    uint64_t now;
    while ((now = LOAD(sequence, ORDER(1, acquire, relaxed))) % 2 == 1)
        ;
    *(struct tx *)tx = (struct tx){.snapshot = now};
    return true;
}

static bool read(void *memory UNUSED, void *tx, unsigned reg, uint64_t *value)
{
    struct tx *it = tx;
    *value = it->writes[reg] ? it->written[reg] : LOAD(words[reg], DATA_LOAD);
    if (WRONG != 7)
        FENCE(2, acquire);
    return LOAD(sequence, ORDER(7, relaxed, acquire)) == it->snapshot;
}

static bool commit(void *memory UNUSED, void *tx)
{
    struct tx *it = tx;
    uint64_t expected = it->snapshot;
    if (!it->has_written)
        return true;
    if (!SWAP(sequence, &expected, expected + 1, ALWAYS(acq_rel)))
        return false;
    FENCE(3, release);
    for (unsigned reg = 0; reg < REGISTERS; reg++)
        if (it->writes[reg])
            STORE(words[reg], it->written[reg], DATA_STORE);
    STORE(sequence, it->snapshot + 2, ORDER(4, release, relaxed));
    return true;
}

BENCH(begin, read, keep_write, commit, forget)
