/*
NOrec (Dalessandro, Spear and Scott, PPoPP 2010) with the weakest orders that are right in C11.

WRONG: 1 the sequence is loaded relaxed at the beginning, 3 before a validation; 2 no acquire fence between a read and the look at the
sequence, 4 between a validation and that (right: no value comes twice, and what follows looks again); 6 no release fence between taking the
sequence and the stores; 7 it is given back relaxed. 8: in place of the fences 2 and 4 the look is an acquire load.
*/
#include "ordered.h"

static _Atomic uint64_t sequence, words[REGISTERS];

static uint64_t even(memory_order order)
{
    uint64_t now;
    while ((now = LOAD(sequence, order)) % 2 == 1)
        ;
    return now;
}

static bool begin(void *memory UNUSED, void *tx)
{
    *(struct tx *)tx = (struct tx){.snapshot = even(ORDER(1, acquire, relaxed))};
    return true;
}

static bool validate(struct tx *tx)
{
    do {
        tx->snapshot = even(ORDER(3, acquire, relaxed));
        for (unsigned reg = 0; reg < REGISTERS; reg++)
            if (tx->has_read[reg] && LOAD(words[reg], relaxed) != tx->read[reg])
                return false;
        if (WRONG != 8)
            FENCE(4, acquire);
    } while (LOAD(sequence, ORDER(8, relaxed, acquire)) != tx->snapshot);
    return true;
}

static bool read(void *memory UNUSED, void *tx, unsigned reg, uint64_t *value)
{
    struct tx *it = tx;
    if (it->writes[reg]) {
        *value = it->written[reg];
        return true;
    }
    for (;;) {
        *value = LOAD(words[reg], relaxed);
        if (WRONG != 8)
            FENCE(2, acquire);
        if (LOAD(sequence, ORDER(8, relaxed, acquire)) == it->snapshot)
            break;
        if (!validate(it))
            return false;
    }
    it->has_read[reg] = true;
    it->read[reg] = *value;
    return true;
}

static bool commit(void *memory UNUSED, void *tx)
{
    struct tx *it = tx;
    uint64_t expected;
    if (!it->has_written)
        return true;
    while (expected = it->snapshot,
           !SWAP(sequence, &expected, it->snapshot + 1, relaxed))
        if (!validate(it))
            return false;
    FENCE(6, release);
    for (unsigned reg = 0; reg < REGISTERS; reg++)
        if (it->writes[reg])
            STORE(words[reg], it->written[reg], relaxed);
    STORE(sequence, it->snapshot + 2, ORDER(7, release, relaxed));
    return true;
}

BENCH(begin, read, keep_write, commit, forget)
