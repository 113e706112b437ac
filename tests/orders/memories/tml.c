/*
TML, the transactional mutex lock (Dalessandro, Dice, Scott, Shavit and Spear, Euro-Par 2010), with the weakest orders that are right in C11:
one sequence, odd while somebody writes in place. A reader that meets a writer aborts; a writer that asks to abort restores.

WRONG: 1 the sequence is loaded relaxed at the beginning; 2 no acquire fence between value and second look, 7 an acquire look in its place;
3 no release fence between taking the sequence and the first write; 4 given back relaxed.
*/
#include "ordered.h"

static _Atomic uint64_t sequence, words[REGISTERS];

/* `has_written`: this one has the sequence, which is odd. */
static bool begin(void *memory UNUSED, void *tx)
{
    uint64_t now;
    while ((now = LOAD(sequence, ORDER(1, acquire, relaxed))) % 2 == 1)
        ;
    *(struct tx *)tx = (struct tx){.snapshot = now};
    return true;
}

static bool read(void *memory UNUSED, void *tx, unsigned reg, uint64_t *value)
{
    struct tx *it = tx;
    *value = LOAD(words[reg], relaxed);
    if (it->has_written)
        return true;
    if (WRONG != 7)
        FENCE(2, acquire);
    return LOAD(sequence, ORDER(7, relaxed, acquire)) == it->snapshot;
}

static bool write(void *memory UNUSED, void *tx, unsigned reg, uint64_t value)
{
    struct tx *it = tx;
    uint64_t held = it->snapshot;
    if (!it->has_written) {
        if (!SWAP(sequence, &held, held + 1, relaxed))
            return false;
        it->has_written = true;
        FENCE(3, release);
    }
    if (!it->writes[reg])
        it->before[reg] = LOAD(words[reg], relaxed);
    it->writes[reg] = true;
    STORE(words[reg], value, relaxed);
    return true;
}

static bool commit(void *memory UNUSED, void *tx)
{
    struct tx *it = tx;
    if (it->has_written)
        STORE(sequence, it->snapshot + 2, ORDER(4, release, relaxed));
    return true;
}

static void cancel(void *memory, void *tx)
{
    struct tx *it = tx;
    for (unsigned reg = 0; reg < REGISTERS; reg++)
        if (it->writes[reg])
            STORE(words[reg], it->before[reg], relaxed);
    commit(memory, tx);
}

BENCH(begin, read, write, commit, cancel)
